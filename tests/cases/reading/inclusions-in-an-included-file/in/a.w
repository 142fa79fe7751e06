@ A.
@c
@i b.w
y;
