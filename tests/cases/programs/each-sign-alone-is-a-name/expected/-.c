/*1:*/
#line 2 "-.w"

#line 4 "+.ch"
int y;
/*:1*/
