@ A name that is a slash, and a head with an index entry.
@c
#include <stdio.h>
int main(void)
{
  int half = 10@<over@>2;
  @<Say the half@>
  return 0;
}
@ @<over@>=/@ @<Say the half@>@^printing@>=
  printf("%d\n", half);
