@ A.
@d S00(x) x
!
+
!
x
@d S01(x) x
#
+
#
x
@d S02(x) x
%
+
%
x
@d S03(x) x
&
+
&
x
@d S04(x) x
(
+
(
x
@d S05(x) x
)
+
)
x
@d S06(x) x
*
+
*
x
@d S07(x) x
+
+
+
x
@d S08(x) x
,
+
,
x
@d S09(x) x
-
+
-
x
@d S10(x) x
.
+
.
x
@d S11(x) x
/
+
/
x
@d S12(x) x
:
+
:
x
@d S13(x) x
;
+
;
x
@d S14(x) x
<
+
<
x
@d S15(x) x
=
+
=
x
@d S16(x) x
>
+
>
x
@d S17(x) x
?
+
?
x
@d S18(x) x
@@
+
@@
x
@d S19(x) x
[
+
[
x
@d S20(x) x
\
+
\
x
@d S21(x) x
]
+
]
x
@d S22(x) x
^
+
^
x
@d S23(x) x
`
+
`
x
@d S24(x) x
{
+
{
x
@d S25(x) x
|
+
|
x
@d S26(x) x
}
+
}
x
@d S27(x) x
~
+
~
x
@c
y
