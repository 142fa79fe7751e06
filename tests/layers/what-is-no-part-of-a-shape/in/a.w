@ A.
@c
@<va...@>@<w@>
@ @<value@>=
x  /* c */ y
@ @<w@>=
1
@ @<value@>=
z
