@ A @(b.h@>.
@d N 1
@ @<c.h@>=
N
@ @(b.h@>=
@h@<c.h@>
@ B @(c.h@>.
