@ @c #include <stdio.h>
int main(void) { @<Greet@> }
@ @<Greet@>= puts("hello, world");
