@ A.
@c
@i b.w
z;
