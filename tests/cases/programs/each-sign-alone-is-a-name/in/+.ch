@x
int x;
@y
int y;
@z
