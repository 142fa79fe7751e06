@x
x
@y
@z
@x
x
x
@y
@i z.w
@z
