@ A.
@c
int a;
@i b.w
@i n.w
