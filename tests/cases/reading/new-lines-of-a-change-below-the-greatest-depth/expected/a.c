/*1:*/
#line 2 "a.w"

#line 1 "z.w"
int z;
#line 2 "b.w"
x
#line 2 "b.w"
x
#line 2 "b.w"
x
#line 2 "b.w"
x
#line 2 "b.w"
x
#line 2 "b.w"
x
/*:1*/
