/*1:*/
#line 3 "a.w"

 
#line 4 "a.w"
 
#line 4 "a.w"
+=d
 
#line 5 "a.w"
 
#line 5 "a.w"

 
#line 6 "a.w"
==h
/*:1*/
