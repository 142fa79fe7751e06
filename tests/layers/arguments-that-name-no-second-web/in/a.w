@ A.
@c
x
