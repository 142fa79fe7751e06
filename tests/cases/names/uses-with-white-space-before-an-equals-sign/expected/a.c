/*1:*/
#line 2 "a.w"

 /*2:*/
#line 11 "a.w"

x
/*:2*/
#line 3 "a.w"
 =1;
 /*2:*/
#line 11 "a.w"

x
/*:2*/
#line 4 "a.w"
 ==2;
 /*2:*/
#line 11 "a.w"

x
/*:2*/
#line 5 "a.w"
 + =3;
 /*2:*/
#line 11 "a.w"

x
/*:2*/
#line 6 "a.w"

=4;
 /*2:*/
#line 11 "a.w"

x
/*:2*/
#line 8 "a.w"
=5;
 /*2:*/
#line 11 "a.w"

x
/*:2*/
#line 9 "a.w"

=6;
/*:1*/
