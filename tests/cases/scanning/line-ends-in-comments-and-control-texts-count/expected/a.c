/*1:*/
#line 2 "a.w"

a
b

c
#include <p@q>
/*:1*/
