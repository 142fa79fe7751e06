#define S00(x) x\
! \
+ \
!\
x
#define S01(x) x\
# \
+ \
#\
x
#define S02(x) x\
% \
+ \
%\
x
#define S03(x) x\
& \
+ \
&\
x
#define S04(x) x\
(\
+\
(\
x
#define S05(x) x\
)\
+\
)\
x
#define S06(x) x\
* \
+ \
*\
x
#define S07(x) x\
+ \
+ \
+\
x
#define S08(x) x\
,\
+\
,\
x
#define S09(x) x\
- \
+ \
-\
x
#define S10(x) x \
. \
+ \
. \
x
#define S11(x) x\
/ \
+ \
/\
x
#define S12(x) x\
: \
+ \
:\
x
#define S13(x) x\
;\
+\
;\
x
#define S14(x) x\
< \
+ \
<\
x
#define S15(x) x\
= \
+ \
=\
x
#define S16(x) x\
> \
+ \
>\
x
#define S17(x) x\
? \
+ \
?\
x
#define S18(x) x \
@ \
+ \
@ \
x
#define S19(x) x\
[\
+\
[\
x
#define S20(x) x\
\
+\
\
x
#define S21(x) x\
]\
+\
]\
x
#define S22(x) x\
^ \
+ \
^\
x
#define S23(x) x \
` \
+ \
` \
x
#define S24(x) x\
{\
+\
{\
x
#define S25(x) x\
| \
+ \
|\
x
#define S26(x) x\
}\
+\
}\
x
#define S27(x) x\
~\
+\
~\
x
/*1:*/
#line 142 "a.w"

y
/*:1*/
