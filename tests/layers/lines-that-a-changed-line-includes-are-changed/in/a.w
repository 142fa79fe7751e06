@ A.
@c
int a;
int b;
int c;
