@ A.
@c
x@<a
b
