% A web that prints the primes below a bound.
% Everything before the first section is passed over.

@* Primes. This program prints the primes below |LIMIT|, a line of them, and how many there are.
A number is prime if the sieve of the included file does not cross it out.

A text in angle brackets is the name of a part that has sections of its own. The text of the part
goes where its name is. A name may be given by its beginning and three dots if no other begins so.

@c
#include <stdio.h>
#include "primes.h"

@<Bound of the search@>
@<Numbers that...@>

int print_primes(void)
{
    int count = 0;
    @<Cross out the multiples of each prime@>
    @<Print the numbers that are left, and count them@>
    return count;
}

int main(void)
{
    int count = print_primes();
    printf("%d primes below %d\n", count, LIMIT);
    return 0;
}

@ The bound is a part of its own, so that a change file can replace it.

@<Bound of the search@>=
enum { LIMIT = 50 };

@i sieve.w

@ @<Print the numbers that are left, and count them@>=
for (int n = 2; n < LIMIT; n++) {
    if (is_composite[n])
        continue;
    printf("%d ", n);
    count++;
}
printf("\n");

@ A name that begins with an at sign and a parenthesis is that of a file, which is made beside the
main file. Other programs can take the function from it.

@(out/primes.h@>=
/* prints the primes below the bound on one line, and gives their number */
int print_primes(void);
