@x
x
x
@y
@i z.w
@i no.w
@z
