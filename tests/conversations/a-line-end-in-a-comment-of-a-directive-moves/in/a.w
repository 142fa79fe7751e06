@ A.
@c
@<Text@>
@<Other@>
@ @<Text@>=
#if a /* one
two */ && b
x
#define M c
y
#endif
@ @<Other@>=
z
