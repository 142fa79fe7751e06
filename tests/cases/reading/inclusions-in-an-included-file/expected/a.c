/*1:*/
#line 2 "a.w"

#line 1 "c.w"
w;
#line 2 "b.w"
x;
#line 4 "a.w"
y;
/*:1*/
