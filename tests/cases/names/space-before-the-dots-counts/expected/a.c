/*1:*/
#line 2 "a.w"

 
#line 3 "a.w"
 
#line 3 "a.w"
 
#line 3 "a.w"

 
#line 4 "a.w"

 
#line 5 "a.w"

/*:1*/
