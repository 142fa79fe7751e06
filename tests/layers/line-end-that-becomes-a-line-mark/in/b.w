@ A.
@c
int x;
@i n.w
int y;
