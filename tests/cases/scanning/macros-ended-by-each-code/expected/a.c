/*1:*/
#line 9 "a.w"


#define ONE 1
#define TWO 2
#define THREE 51
#define F(a) a+\
b

#line 10 "a.w"

y
/*:1*/
