/*1:*/
#line 2 "a.w"

#line 1 "b c.w"
y;
/*:1*/
