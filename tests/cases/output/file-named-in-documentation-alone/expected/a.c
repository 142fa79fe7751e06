/*1:*/
#line 2 "a.w"

 /*2:*/
#line 4 "a.w"

1
/*:2*/
#line 3 "a.w"

/*:1*/
