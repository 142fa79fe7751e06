/*1:*/
#line 2 "a.w"

#define M a \ b
#line 5 "a.w"
#define N a \
 b
#define P a \ b
#line 9 "a.w"
#define Q a \
 b
#define R a \
 b
#define S a \b
#line 15 "a.w"
#define T a \b
#line 17 "a.w"
#define U a \
 b
#line 20 "a.w"
#define V a\
 /*2:*/
#line 34 "a.w"

x\
 /*:2*/
#line 21 "a.w"

#define W\
 97
#define X a \
 b
m a \
 b
p a \
b
u a \

b
z \
 /*:1*/
