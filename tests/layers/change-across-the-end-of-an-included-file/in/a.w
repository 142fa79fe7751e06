@ A.
@i b.w
int b;
x
