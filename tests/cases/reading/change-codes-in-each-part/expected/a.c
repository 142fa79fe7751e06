/*1:*/
#line 2 "a.w"

int a;
#line 10 "a.ch"
int B;
#line 15 "a.ch"
int C;
/*:1*/
