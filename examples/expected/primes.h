/*6:*/
#line 51 "primes.w"


int print_primes(void);
/*:6*/
