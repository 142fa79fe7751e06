@ A.
@c
q
@i
@i no.w
