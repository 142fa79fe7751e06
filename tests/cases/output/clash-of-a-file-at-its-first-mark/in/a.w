@ A @<a.c@>.
@c
x
@ @(a.c@>=
y
