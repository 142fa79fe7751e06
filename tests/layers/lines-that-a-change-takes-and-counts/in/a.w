@ A.
@c
x
y
