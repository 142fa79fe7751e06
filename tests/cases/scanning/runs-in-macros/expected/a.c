#define one(x) x+1
#define two x y "s"'c'97 z
#define threefour (5)
#define five a b \
c+\
d \
1 "e" \
f; g \
h
#define six(x)\
i+j
#define sevena b\
(k)
#define eight "l"+m
#define nine -n
#define ten "o@p" q"r" t
/*1:*/
#line 18 "a.w"

z
/*:1*/
