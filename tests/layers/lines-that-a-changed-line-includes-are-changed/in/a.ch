@x
int b;
@y
int d;
@i e.w
@z
