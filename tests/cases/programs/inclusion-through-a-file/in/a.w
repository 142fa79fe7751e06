@ A.
@c
@i b.w/c.w
