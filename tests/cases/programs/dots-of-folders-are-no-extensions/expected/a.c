/*1:*/
#line 2 "d.e/a.w"

#line 4 "d.e/b.ch"
int y;
/*:1*/
