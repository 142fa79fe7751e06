/*1:*/
#line 2 "a.b.w"

int x;
/*:1*/
