@ A.
@c
@i d
