@x
int a;
int b;
y
@y
int z;
@z
@x
no
@y
@z
