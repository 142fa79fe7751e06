/*1:*/
#line 2 "a.w"

int a;
/*:1*/
