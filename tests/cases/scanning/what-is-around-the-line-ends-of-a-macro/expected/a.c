#define A1 \
x \
y
#define B xy
#define C xy
#define D 97 \
98
#define E x \
y
#define F(x) x\
(x)
#define G \
x
#define H u\ \
v
#define I J \
x
#define K -> L \
\
\
.m
/*1:*/
#line 25 "a.w"

z
/*:1*/
