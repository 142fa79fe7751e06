@Y outside
@X
int a;
@Z
@x
	 

int b;
@y
int B;
@x
int c;
no such line;
@y
int C;
