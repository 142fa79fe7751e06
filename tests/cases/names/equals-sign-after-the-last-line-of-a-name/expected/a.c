/*1:*/
#line 2 "a.w"

 /*2:*/
#line 6 "a.w"

y
/*:2*/
#line 4 "a.w"
=x
 
#line 5 "a.w"

/*:1*/
