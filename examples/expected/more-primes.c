/*1:*/
#line 10 "primes.w"

#include <stdio.h>
#include "primes.h"

 /*2:*/
#line 34 "primes.w"

#line 8 "primes.ch"
enum { LIMIT = 100 };
#line 36 "primes.w"

#line 1 "sieve.w"
/*:2*/
#line 14 "primes.w"

 /*4:*/
#line 9 "sieve.w"

#line 16 "primes.ch"
typedef unsigned char flag;
static flag is_composite[LIMIT];
#line 38 "primes.w"

/*:4*/
#line 15 "primes.w"


int print_primes(void)
{
int count = 0;
 /*3:*/
#line 4 "sieve.w"

for (int n = 2; n * n < LIMIT; n++)
for (int multiple = n * n; multiple < LIMIT; multiple += n)
is_composite[multiple] = 1;

/*:3*/
#line 20 "primes.w"

 /*5:*/
#line 39 "primes.w"

for (int n = 2; n < LIMIT; n++) {
if (is_composite[n])
continue;
printf("%d ", n);
count++;
}
printf("\n");

/*:5*/
#line 21 "primes.w"

return count;
}

int main(void)
{
int count = print_primes();
printf("%d primes below %d\n", count, LIMIT);
return 0;
}

/*:1*/
