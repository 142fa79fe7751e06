@ A.
@c
int a;
