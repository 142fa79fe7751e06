@ A.
@c
a
b

c	
d
