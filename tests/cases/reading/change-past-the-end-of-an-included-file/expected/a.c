/*1:*/
#line 2 "a.w"

#line 1 "b.w"
x;
#line 5 "a.ch"
w;
/*:1*/
