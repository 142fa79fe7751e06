/*1:*/
#line 3 "a.w"

 /*2:*/
#line 5 "a.w"


#define N 10

#line 6 "a.w"

/*:2*/
#line 4 "a.w"
 /*2:*/
#line 5 "a.w"


#define N 10

#line 6 "a.w"

/*:2*/
#line 4 "a.w"

/*:1*/
