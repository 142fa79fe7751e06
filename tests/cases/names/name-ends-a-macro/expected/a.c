#define N 10
/*2:*/
#line 5 "a.w"

N
/*:2*/
