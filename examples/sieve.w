@ The sieve of Eratosthenes. An entry of |is_composite| is set for each multiple of a smaller number;
the multiples of |n| that are below its square have a smaller factor and were crossed out with that.

@<Cross out the multiples of each prime@>=
for (int n = 2; n * n < LIMIT; n++)
    for (int multiple = n * n; multiple < LIMIT; multiple += n)
        is_composite[multiple] = 1;

@ @<Numbers that are crossed out@>=
static char is_composite[LIMIT];
