/*1:*/
#line 2 "a.w"

#line 4 "a.ch"
int z;
#line 1 "b.w"
int b;
/*:1*/
