@ A.
@d N 10
@c
int x=@<v@>;
@ @<v@>=
N
