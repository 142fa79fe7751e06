/*1:*/
#line 3 "a.w"

a b c d e f g h
i j k l m n
o p q rs
t @ u # include <v
#includes <a
x
/*:1*/
