#define F a
#define G
#define H h
/*3:*/
#line 10 "a.w"

 /*1:*/
#line 4 "a.w"

x
/*:1*/
#line 11 "a.w"

/*:3*/
