@ A.
@c
@<a
b@>=x
@<c@,d@>
@ @<a b@>=
y
@ @<a b c@>=
z
