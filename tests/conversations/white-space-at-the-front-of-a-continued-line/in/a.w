@ A.
@d N 1
  +2
@d P 3 \
  +4
@c
#define M do\
  x
y
@<B@>
@ @<B@>=
z\
t
