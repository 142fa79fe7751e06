#define N 1
/*1:*/
#line 4 "a.w"

x y "\@" z
a  b
R "x"
#include <a
c d
#endif
e#define f
#line 13 "a.w"
i
#define j \
k n
#line 17 "a.w"
o
/*:1*/
