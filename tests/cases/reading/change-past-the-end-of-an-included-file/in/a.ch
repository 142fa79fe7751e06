@x
y;
z;
@y
w;
@z
