/*1:*/
#line 5 "a.w"

#line 1 "b.w"
x;
#line 1 "b.w"
x;
#line 1 "b.w"
x;
#line 9 "a.w"
y;
/*:1*/
