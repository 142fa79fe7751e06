/*1:*/
#line 2 "x/y.web"

#line 4 "b.ch"
int y;
/*:1*/
