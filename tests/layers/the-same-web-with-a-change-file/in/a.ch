@x
x
@y
z
@z
