@x
b

c
@y
a
@z
@x
a
@y
A
@z
@x
d
@y
D
@z
