@x
@y
int z;
@x
int a;
