/*1:*/
#line 2 "a.b.w"

#line 4 "c.d"
int y;
/*:1*/
