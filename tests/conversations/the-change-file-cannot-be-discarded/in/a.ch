@x
int x;
@y
int z;
@z
