#define Q(x) "s"\
+\
"s"\
(\
"s" \
x
#define C(x) 97 \
+ \
97\
(\
97 \
x
#define V(x) v \
+ \
v\
(\
v \
x
#define D(x) 1 \
+ \
1\
(\
1 \
x
#define W(x) w\
+\
w\
(\
w \
x
#define N65 \
(x)
#define Nv \
(x)
#define N165v \
(x)
#define N"s"\
(x)
/*1:*/
#line 40 "a.w"

y
/*:1*/
