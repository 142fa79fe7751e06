/*1:*/
#line 2 "a.w"

x 
#line 4 "a.w"
/*:1*/
