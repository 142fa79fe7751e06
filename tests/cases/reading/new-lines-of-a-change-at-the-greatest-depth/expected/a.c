/*1:*/
#line 2 "a.w"

#line 2 "b.w"
x
#line 2 "b.w"
x
#line 2 "b.w"
x
#line 2 "b.w"
x
#line 2 "b.w"
x
#line 2 "b.w"
x
#line 2 "b.w"
x
/*:1*/
