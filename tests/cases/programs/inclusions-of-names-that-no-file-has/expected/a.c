/*1:*/
#line 2 "a.w"

#line 4 "a.w"
int x;
/*:1*/
