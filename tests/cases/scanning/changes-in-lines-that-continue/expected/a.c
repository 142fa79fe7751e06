/*1:*/
#line 2 "a.w"

#define M a \
 b1 \
 b2 \
 c
#line 6 "a.w"
int m;
#define N a \
 q
#line 11 "a.ch"
int r;
#line 9 "a.w"
int n;
#define P a \
 b \
 d \
 c
int p;
#define Q a \
(b)
#line 18 "a.w"
int q;
#line 20 "a.ch"
#define R b \

#line 20 "a.w"
int r;
/*:1*/
