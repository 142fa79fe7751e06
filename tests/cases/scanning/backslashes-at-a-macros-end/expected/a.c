#define A x
#define B x
#define C x \y
#define D
#define E(x) \ x
#define F "s\
"
#define G x \
/*1:*/
#line 15 "a.w"

y
/*:1*/
