@ A.
@(two  words.h@>=
x
@ @(café.h@>=
y
@ @(semi;colon "q" \n.h@>=
z
