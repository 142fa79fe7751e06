/*1:*/
#line 2 "+.w"

int x;
/*:1*/
