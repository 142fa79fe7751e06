/*1:*/
#line 2 "a.w"

a
#line 6 "a.ch"
a
#line 7 "a.w"
d
/*:1*/
