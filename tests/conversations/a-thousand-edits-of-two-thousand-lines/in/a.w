% A program in many parts.
@ The program uses each group.
@d SIZE 100
@d NEXT(x) ((x) + 1)
@c
@<Group 0@>;
@<Group 1@>;
@<Group 2@>;
@<Group 3@>;
@<Group 4@>;
@<Group 5@>;
@<Group 6@>;
@<Group 7@>;
@ Group 0.
@<Group 0@>=
@<Part 000 of the program@>
@<Part 008 of the program@>
@<Part 016 of the program@>
@<Part 024 of the program@>
@<Part 032 of the program@>
@<Part 040 of the program@>
@<Part 048 of the program@>
@<Part 056 of the program@>
@<Part 064 of the program@>
@<Part 072 of the program@>
@<Part 080 of the program@>
@<Part 088 of the program@>
@<Part 096 of the program@>
@<Part 104 of the program@>
@<Part 112 of the program@>
@ Group 1.
@<Group 1@>=
@<Part 001 of the program@>
@<Part 009 of the program@>
@<Part 017 of the program@>
@<Part 025 of the program@>
@<Part 033 of the program@>
@<Part 041 of the program@>
@<Part 049 of the program@>
@<Part 057 of the program@>
@<Part 065 of the program@>
@<Part 073 of the program@>
@<Part 081 of the program@>
@<Part 089 of the program@>
@<Part 097 of the program@>
@<Part 105 of the program@>
@<Part 113 of the program@>
@ Group 2.
@<Group 2@>=
@<Part 002 of the program@>
@<Part 010 of the program@>
@<Part 018 of the program@>
@<Part 026 of the program@>
@<Part 034 of the program@>
@<Part 042 of the program@>
@<Part 050 of the program@>
@<Part 058 of the program@>
@<Part 066 of the program@>
@<Part 074 of the program@>
@<Part 082 of the program@>
@<Part 090 of the program@>
@<Part 098 of the program@>
@<Part 106 of the program@>
@<Part 114 of the program@>
@ Group 3.
@<Group 3@>=
@<Part 003 of the program@>
@<Part 011 of the program@>
@<Part 019 of the program@>
@<Part 027 of the program@>
@<Part 035 of the program@>
@<Part 043 of the program@>
@<Part 051 of the program@>
@<Part 059 of the program@>
@<Part 067 of the program@>
@<Part 075 of the program@>
@<Part 083 of the program@>
@<Part 091 of the program@>
@<Part 099 of the program@>
@<Part 107 of the program@>
@<Part 115 of the program@>
@ Group 4.
@<Group 4@>=
@<Part 004 of the program@>
@<Part 012 of the program@>
@<Part 020 of the program@>
@<Part 028 of the program@>
@<Part 036 of the program@>
@<Part 044 of the program@>
@<Part 052 of the program@>
@<Part 060 of the program@>
@<Part 068 of the program@>
@<Part 076 of the program@>
@<Part 084 of the program@>
@<Part 092 of the program@>
@<Part 100 of the program@>
@<Part 108 of the program@>
@<Part 116 of the program@>
@ Group 5.
@<Group 5@>=
@<Part 005 of the program@>
@<Part 013 of the program@>
@<Part 021 of the program@>
@<Part 029 of the program@>
@<Part 037 of the program@>
@<Part 045 of the program@>
@<Part 053 of the program@>
@<Part 061 of the program@>
@<Part 069 of the program@>
@<Part 077 of the program@>
@<Part 085 of the program@>
@<Part 093 of the program@>
@<Part 101 of the program@>
@<Part 109 of the program@>
@<Part 117 of the program@>
@ Group 6.
@<Group 6@>=
@<Part 006 of the program@>
@<Part 014 of the program@>
@<Part 022 of the program@>
@<Part 030 of the program@>
@<Part 038 of the program@>
@<Part 046 of the program@>
@<Part 054 of the program@>
@<Part 062 of the program@>
@<Part 070 of the program@>
@<Part 078 of the program@>
@<Part 086 of the program@>
@<Part 094 of the program@>
@<Part 102 of the program@>
@<Part 110 of the program@>
@<Part 118 of the program@>
@ Group 7.
@<Group 7@>=
@<Part 015 of the program@>
@<Part 023 of the program@>
@<Part 031 of the program@>
@<Part 039 of the program@>
@<Part 055 of the program@>
@<Part 063 of the program@>
@<Part 071 of the program@>
@<Part 079 of the program@>
@<Part 095 of the program@>
@<Part 103 of the program@>
@<Part 111 of the program@>
@<Part 119 of the program@>
@ Part 0 is about |x|.
@<Part 000 of the program@>=
printf("%d and 72\n", x);
if (x > 32) x = 0; /* too large */
if (x > 63) x = 0; /* too large */
}  /* 60 times */
for (i = 0; i < 26; i++) {
if (x > 62) x = 0; /* too large */
x = x + 49;
for (i = 0; i < 77; i++) {
x = x + 89;
}  /* 34 times */
c = @'a' + 75;
if (x > 40) x = 0; /* too large */
x = x + 2;
@ Part 1 is about |x|.
@<Part 001 of the program@>=
x = x + 83;
x  =  table[1] ;
for (i = 0; i < 87; i++) {
c = @'a' + 54;
x = x + 67;
c = @'a' + 97;
}  /* 63 times */
x  =  table[29] ;
@=volatile@> int y_29; // a comment
c = @'a' + 97;
}  /* 37 times */
x = x + 53;
x  =  table[82] ;
@ Part 2 is about |x|.
@<Part 002 of the program@>=
if (x > 23) x = 0; /* too large */
call(x@&_15, 'q', "a@@b");
@=volatile@> int y_92; // a comment
x  =  table[54] ;
x  =  table[85] ;
c = @'a' + 38;
call(x@&_75, 'q', "a@@b");
}  /* 64 times */
for (i = 0; i < 75; i++) {
x = x + 61;
c = @'a' + 95;
for (i = 0; i < 53; i++) {
printf("%d and 46\n", x);
@ Part 3 is about |x|.
@<Part 003 of the program@>=
x  =  table[89] ;
@=volatile@> int y_11; // a comment
}  /* 84 times */
x  =  table[13] ;
printf("%d and 66\n", x);
for (i = 0; i < 47; i++) {
}  /* 93 times */
x = x + 60;
x = x + 39;
#define LOCAL 75
#define LOCAL 50
printf("%d and 21\n", x);
x  =  table[29] ;
@ Part 4 is about |x|.
@<Part 004 of the program@>=
x = x + 98;
c = @'a' + 69;
x  =  table[29] ;
for (i = 0; i < 65; i++) {
@=volatile@> int y_73; // a comment
@=volatile@> int y_58; // a comment
call(x@&_84, 'q', "a@@b");
x  =  table[77] ;
x = x + 49;
x  =  table[16] ;
x  =  table[99] ;
x  =  table[26] ;
for (i = 0; i < 7; i++) {
@ Part 5 is about |x|.
@<Part 005 of the program@>=
}  /* 46 times */
#define LOCAL 70
c = @'a' + 64;
for (i = 0; i < 62; i++) {
@=volatile@> int y_53; // a comment
@=volatile@> int y_0; // a comment
x  =  table[69] ;
#define LOCAL 78
@=volatile@> int y_58; // a comment
#define LOCAL 3
c = @'a' + 81;
printf("%d and 70\n", x);
#define LOCAL 23
@ Part 6 is about |x|.
@<Part 006 of the program@>=
if (x > 70) x = 0; /* too large */
call(x@&_4, 'q', "a@@b");
if (x > 10) x = 0; /* too large */
x = x + 57;
x = x + 96;
call(x@&_31, 'q', "a@@b");
call(x@&_14, 'q', "a@@b");
#define LOCAL 23
@=volatile@> int y_37; // a comment
if (x > 21) x = 0; /* too large */
printf("%d and 32\n", x);
x  =  table[21] ;
call(x@&_82, 'q', "a@@b");
@ Part 7 is about |x|.
@(part007.h@>=
call(x@&_58, 'q', "a@@b");
@=volatile@> int y_63; // a comment
}  /* 14 times */
x = x + 39;
for (i = 0; i < 43; i++) {
for (i = 0; i < 24; i++) {
call(x@&_13, 'q', "a@@b");
call(x@&_93, 'q', "a@@b");
x  =  table[26] ;
#define LOCAL 55
x = x + 28;
x = x + 50;
printf("%d and 4\n", x);
@ Part 8 is about |x|.
@<Part 008 of the program@>=
printf("%d and 57\n", x);
x  =  table[86] ;
for (i = 0; i < 69; i++) {
c = @'a' + 80;
x  =  table[57] ;
c = @'a' + 67;
x = x + 50;
#define LOCAL 41
for (i = 0; i < 7; i++) {
call(x@&_16, 'q', "a@@b");
c = @'a' + 6;
call(x@&_9, 'q', "a@@b");
if (x > 39) x = 0; /* too large */
@ Part 9 is about |x|.
@<Part 009 of the program@>=
call(x@&_95, 'q', "a@@b");
printf("%d and 53\n", x);
#define LOCAL 32
printf("%d and 1\n", x);
x  =  table[4] ;
#define LOCAL 27
#define LOCAL 58
printf("%d and 99\n", x);
#define LOCAL 65
x = x + 48;
c = @'a' + 44;
if (x > 26) x = 0; /* too large */
#define LOCAL 86
@ Part 10 is about |x|.
@<Part 010 of the program@>=
for (i = 0; i < 75; i++) {
c = @'a' + 63;
if (x > 85) x = 0; /* too large */
for (i = 0; i < 37; i++) {
x  =  table[63] ;
x = x + 41;
#define LOCAL 51
call(x@&_2, 'q', "a@@b");
printf("%d and 25\n", x);
@=volatile@> int y_72; // a comment
printf("%d and 43\n", x);
for (i = 0; i < 27; i++) {
call(x@&_86, 'q', "a@@b");
@ Part 11 is about |x|.
@<Part 011 of the program@>=
if (x > 48) x = 0; /* too large */
x  =  table[44] ;
x  =  table[62] ;
x  =  table[30] ;
if (x > 92) x = 0; /* too large */
x = x + 10;
printf("%d and 21\n", x);
printf("%d and 68\n", x);
c = @'a' + 34;
@=volatile@> int y_76; // a comment
x  =  table[32] ;
@=volatile@> int y_43; // a comment
@=volatile@> int y_14; // a comment
@ Part 12 is about |x|.
@<Part 012 of the program@>=
call(x@&_30, 'q', "a@@b");
#define LOCAL 99
}  /* 17 times */
#define LOCAL 70
if (x > 41) x = 0; /* too large */
x = x + 52;
if (x > 48) x = 0; /* too large */
printf("%d and 16\n", x);
@=volatile@> int y_14; // a comment
#define LOCAL 75
for (i = 0; i < 9; i++) {
#define LOCAL 70
c = @'a' + 72;
@ Part 13 is about |x|.
@<Part 013 of the program@>=
if (x > 34) x = 0; /* too large */
@=volatile@> int y_37; // a comment
#define LOCAL 68
if (x > 58) x = 0; /* too large */
call(x@&_13, 'q', "a@@b");
x = x + 37;
x = x + 78;
x = x + 11;
for (i = 0; i < 14; i++) {
x = x + 24;
c = @'a' + 75;
for (i = 0; i < 20; i++) {
if (x > 57) x = 0; /* too large */
@ Part 14 is about |x|.
@<Part 014 of the program@>=
printf("%d and 87\n", x);
c = @'a' + 20;
if (x > 55) x = 0; /* too large */
for (i = 0; i < 69; i++) {
call(x@&_70, 'q', "a@@b");
call(x@&_91, 'q', "a@@b");
}  /* 40 times */
if (x > 26) x = 0; /* too large */
@=volatile@> int y_5; // a comment
x = x + 1;
call(x@&_92, 'q', "a@@b");
#define LOCAL 40
}  /* 50 times */
@ Part 15 is about |x|.
@<Part 015 of the program@>=
@=volatile@> int y_51; // a comment
if (x > 8) x = 0; /* too large */
@=volatile@> int y_76; // a comment
}  /* 14 times */
call(x@&_27, 'q', "a@@b");
#define LOCAL 99
x  =  table[88] ;
}  /* 84 times */
@=volatile@> int y_33; // a comment
printf("%d and 69\n", x);
c = @'a' + 39;
c = @'a' + 31;
@=volatile@> int y_10; // a comment
@ Part 16 is about |x|.
@<Part 016 of the program@>=
call(x@&_11, 'q', "a@@b");
}  /* 11 times */
#define LOCAL 82
@=volatile@> int y_29; // a comment
for (i = 0; i < 39; i++) {
x = x + 41;
printf("%d and 40\n", x);
#define LOCAL 38
c = @'a' + 42;
if (x > 69) x = 0; /* too large */
#define LOCAL 74
#define LOCAL 11
c = @'a' + 28;
@ Part 17 is about |x|.
@<Part 017 of the program@>=
x = x + 31;
for (i = 0; i < 9; i++) {
call(x@&_70, 'q', "a@@b");
if (x > 93) x = 0; /* too large */
if (x > 2) x = 0; /* too large */
x = x + 37;
@=volatile@> int y_63; // a comment
}  /* 19 times */
if (x > 64) x = 0; /* too large */
@=volatile@> int y_9; // a comment
x  =  table[85] ;
printf("%d and 22\n", x);
printf("%d and 18\n", x);
@ Part 18 is about |x|.
@<Part 018 of the program@>=
@=volatile@> int y_39; // a comment
if (x > 90) x = 0; /* too large */
x  =  table[77] ;
call(x@&_16, 'q', "a@@b");
c = @'a' + 18;
x  =  table[92] ;
x = x + 99;
@=volatile@> int y_79; // a comment
x  =  table[95] ;
c = @'a' + 22;
call(x@&_55, 'q', "a@@b");
x  =  table[20] ;
x = x + 91;
@ Part 19 is about |x|.
@<Part 019 of the program@>=
c = @'a' + 32;
if (x > 87) x = 0; /* too large */
}  /* 55 times */
x  =  table[32] ;
x  =  table[56] ;
x  =  table[58] ;
x = x + 50;
@=volatile@> int y_21; // a comment
call(x@&_62, 'q', "a@@b");
x = x + 82;
for (i = 0; i < 73; i++) {
x = x + 7;
@=volatile@> int y_74; // a comment
@ Part 20 is about |x|.
@<Part 020 of the program@>=
printf("%d and 75\n", x);
printf("%d and 17\n", x);
call(x@&_35, 'q', "a@@b");
for (i = 0; i < 72; i++) {
for (i = 0; i < 22; i++) {
#define LOCAL 11
c = @'a' + 62;
x = x + 22;
x  =  table[40] ;
x  =  table[83] ;
}  /* 87 times */
c = @'a' + 30;
@=volatile@> int y_63; // a comment
@ Part 21 is about |x|.
@<Part 021 of the program@>=
}  /* 28 times */
for (i = 0; i < 43; i++) {
x  =  table[78] ;
call(x@&_82, 'q', "a@@b");
c = @'a' + 6;
if (x > 97) x = 0; /* too large */
x  =  table[82] ;
@=volatile@> int y_20; // a comment
x  =  table[98] ;
c = @'a' + 39;
call(x@&_88, 'q', "a@@b");
call(x@&_70, 'q', "a@@b");
@=volatile@> int y_21; // a comment
@ Part 22 is about |x|.
@<Part 022 of the program@>=
}  /* 76 times */
if (x > 15) x = 0; /* too large */
#define LOCAL 65
#define LOCAL 48
printf("%d and 19\n", x);
call(x@&_54, 'q', "a@@b");
c = @'a' + 72;
x = x + 63;
for (i = 0; i < 91; i++) {
@=volatile@> int y_49; // a comment
x  =  table[21] ;
x  =  table[93] ;
x = x + 67;
@ Part 23 is about |x|.
@<Part 023 of the program@>=
if (x > 32) x = 0; /* too large */
if (x > 34) x = 0; /* too large */
if (x > 17) x = 0; /* too large */
#define LOCAL 84
if (x > 56) x = 0; /* too large */
c = @'a' + 48;
for (i = 0; i < 50; i++) {
printf("%d and 41\n", x);
}  /* 16 times */
#define LOCAL 62
c = @'a' + 15;
for (i = 0; i < 76; i++) {
x  =  table[52] ;
@ Part 24 is about |x|.
@<Part 024 of the program@>=
if (x > 84) x = 0; /* too large */
call(x@&_35, 'q', "a@@b");
c = @'a' + 48;
x  =  table[0] ;
c = @'a' + 67;
}  /* 74 times */
x = x + 3;
#define LOCAL 31
call(x@&_26, 'q', "a@@b");
printf("%d and 36\n", x);
printf("%d and 69\n", x);
c = @'a' + 34;
call(x@&_74, 'q', "a@@b");
@ Part 25 is about |x|.
@<Part 025 of the program@>=
call(x@&_87, 'q', "a@@b");
}  /* 21 times */
x  =  table[45] ;
}  /* 53 times */
if (x > 98) x = 0; /* too large */
c = @'a' + 73;
for (i = 0; i < 26; i++) {
call(x@&_13, 'q', "a@@b");
x = x + 15;
#define LOCAL 95
x = x + 69;
call(x@&_86, 'q', "a@@b");
printf("%d and 9\n", x);
@ Part 26 is about |x|.
@<Part 026 of the program@>=
x  =  table[47] ;
#define LOCAL 39
for (i = 0; i < 64; i++) {
@=volatile@> int y_97; // a comment
x  =  table[41] ;
x = x + 15;
}  /* 91 times */
}  /* 44 times */
call(x@&_69, 'q', "a@@b");
for (i = 0; i < 43; i++) {
#define LOCAL 63
if (x > 82) x = 0; /* too large */
for (i = 0; i < 48; i++) {
@ Part 27 is about |x|.
@<Part 027 of the program@>=
c = @'a' + 71;
x = x + 35;
#define LOCAL 92
x  =  table[25] ;
}  /* 76 times */
x  =  table[52] ;
call(x@&_89, 'q', "a@@b");
printf("%d and 57\n", x);
#define LOCAL 85
x  =  table[25] ;
@=volatile@> int y_67; // a comment
x = x + 86;
for (i = 0; i < 74; i++) {
@ Part 28 is about |x|.
@<Part 028 of the program@>=
for (i = 0; i < 51; i++) {
@=volatile@> int y_79; // a comment
#define LOCAL 93
if (x > 63) x = 0; /* too large */
c = @'a' + 81;
call(x@&_80, 'q', "a@@b");
x = x + 52;
printf("%d and 81\n", x);
for (i = 0; i < 34; i++) {
printf("%d and 98\n", x);
if (x > 99) x = 0; /* too large */
#define LOCAL 1
@=volatile@> int y_33; // a comment
@ Part 29 is about |x|.
@<Part 029 of the program@>=
for (i = 0; i < 87; i++) {
x  =  table[38] ;
printf("%d and 59\n", x);
call(x@&_62, 'q', "a@@b");
printf("%d and 59\n", x);
x  =  table[5] ;
call(x@&_65, 'q', "a@@b");
if (x > 95) x = 0; /* too large */
#define LOCAL 54
if (x > 45) x = 0; /* too large */
if (x > 84) x = 0; /* too large */
}  /* 2 times */
printf("%d and 64\n", x);
@ Part 30 is about |x|.
@<Part 030 of the program@>=
printf("%d and 88\n", x);
if (x > 51) x = 0; /* too large */
call(x@&_77, 'q', "a@@b");
call(x@&_26, 'q', "a@@b");
x  =  table[26] ;
c = @'a' + 42;
call(x@&_8, 'q', "a@@b");
if (x > 89) x = 0; /* too large */
x  =  table[84] ;
@=volatile@> int y_59; // a comment
x  =  table[71] ;
x = x + 21;
call(x@&_83, 'q', "a@@b");
@ Part 31 is about |x|.
@<Part 031 of the program@>=
x  =  table[34] ;
@=volatile@> int y_78; // a comment
c = @'a' + 50;
x  =  table[51] ;
printf("%d and 61\n", x);
call(x@&_78, 'q', "a@@b");
@=volatile@> int y_91; // a comment
c = @'a' + 33;
#define LOCAL 90
c = @'a' + 84;
x = x + 79;
for (i = 0; i < 40; i++) {
for (i = 0; i < 97; i++) {
@ Part 32 is about |x|.
@<Part 032 of the program@>=
c = @'a' + 34;
c = @'a' + 9;
printf("%d and 74\n", x);
}  /* 74 times */
printf("%d and 77\n", x);
call(x@&_58, 'q', "a@@b");
x  =  table[20] ;
printf("%d and 99\n", x);
printf("%d and 91\n", x);
}  /* 46 times */
call(x@&_96, 'q', "a@@b");
for (i = 0; i < 30; i++) {
if (x > 91) x = 0; /* too large */
@ Part 33 is about |x|.
@<Part 033 of the program@>=
c = @'a' + 91;
call(x@&_8, 'q', "a@@b");
if (x > 29) x = 0; /* too large */
for (i = 0; i < 41; i++) {
}  /* 12 times */
printf("%d and 5\n", x);
x = x + 76;
x = x + 96;
c = @'a' + 87;
x = x + 63;
x  =  table[92] ;
#define LOCAL 56
@=volatile@> int y_84; // a comment
@ Part 34 is about |x|.
@<Part 034 of the program@>=
call(x@&_15, 'q', "a@@b");
#define LOCAL 88
printf("%d and 12\n", x);
c = @'a' + 51;
c = @'a' + 63;
}  /* 48 times */
printf("%d and 29\n", x);
c = @'a' + 36;
}  /* 70 times */
#define LOCAL 49
c = @'a' + 57;
call(x@&_42, 'q', "a@@b");
}  /* 75 times */
@ Part 35 is about |x|.
@<Part 035 of the program@>=
if (x > 27) x = 0; /* too large */
if (x > 5) x = 0; /* too large */
x = x + 0;
}  /* 40 times */
for (i = 0; i < 74; i++) {
call(x@&_25, 'q', "a@@b");
for (i = 0; i < 20; i++) {
printf("%d and 3\n", x);
x = x + 49;
printf("%d and 85\n", x);
x  =  table[7] ;
#define LOCAL 48
call(x@&_16, 'q', "a@@b");
@ Part 36 is about |x|.
@<Part 036 of the program@>=
if (x > 59) x = 0; /* too large */
call(x@&_1, 'q', "a@@b");
x = x + 68;
x = x + 67;
printf("%d and 5\n", x);
call(x@&_99, 'q', "a@@b");
if (x > 55) x = 0; /* too large */
if (x > 24) x = 0; /* too large */
x = x + 63;
printf("%d and 95\n", x);
call(x@&_87, 'q', "a@@b");
c = @'a' + 84;
}  /* 49 times */
@ Part 37 is about |x|.
@<Part 037 of the program@>=
@=volatile@> int y_80; // a comment
call(x@&_33, 'q', "a@@b");
c = @'a' + 31;
x = x + 75;
#define LOCAL 22
@=volatile@> int y_54; // a comment
#define LOCAL 89
x  =  table[81] ;
x  =  table[7] ;
@=volatile@> int y_70; // a comment
for (i = 0; i < 68; i++) {
c = @'a' + 91;
x  =  table[54] ;
@ Part 38 is about |x|.
@<Part 038 of the program@>=
if (x > 91) x = 0; /* too large */
call(x@&_95, 'q', "a@@b");
#define LOCAL 92
if (x > 32) x = 0; /* too large */
printf("%d and 12\n", x);
printf("%d and 7\n", x);
c = @'a' + 54;
x = x + 6;
if (x > 65) x = 0; /* too large */
}  /* 64 times */
@=volatile@> int y_12; // a comment
@=volatile@> int y_5; // a comment
printf("%d and 68\n", x);
@ Part 39 is about |x|.
@<Part 039 of the program@>=
x = x + 56;
printf("%d and 50\n", x);
}  /* 3 times */
x  =  table[34] ;
if (x > 32) x = 0; /* too large */
@=volatile@> int y_10; // a comment
call(x@&_4, 'q', "a@@b");
for (i = 0; i < 7; i++) {
call(x@&_40, 'q', "a@@b");
printf("%d and 33\n", x);
for (i = 0; i < 14; i++) {
call(x@&_12, 'q', "a@@b");
for (i = 0; i < 31; i++) {
@ Part 40 is about |x|.
@<Part 040 of the program@>=
x  =  table[71] ;
c = @'a' + 42;
@=volatile@> int y_65; // a comment
for (i = 0; i < 74; i++) {
}  /* 13 times */
printf("%d and 83\n", x);
}  /* 67 times */
x  =  table[92] ;
#define LOCAL 89
x  =  table[68] ;
x = x + 37;
printf("%d and 25\n", x);
@=volatile@> int y_49; // a comment
@ Part 41 is about |x|.
@<Part 041 of the program@>=
x  =  table[41] ;
if (x > 52) x = 0; /* too large */
@=volatile@> int y_16; // a comment
#define LOCAL 8
x = x + 38;
x  =  table[40] ;
for (i = 0; i < 38; i++) {
@=volatile@> int y_45; // a comment
call(x@&_41, 'q', "a@@b");
x  =  table[64] ;
x = x + 67;
if (x > 19) x = 0; /* too large */
@=volatile@> int y_93; // a comment
@ Part 42 is about |x|.
@<Part 042 of the program@>=
@=volatile@> int y_41; // a comment
#define LOCAL 8
}  /* 35 times */
}  /* 58 times */
@=volatile@> int y_94; // a comment
for (i = 0; i < 10; i++) {
#define LOCAL 7
printf("%d and 6\n", x);
x  =  table[62] ;
#define LOCAL 32
c = @'a' + 89;
#define LOCAL 95
@=volatile@> int y_46; // a comment
@ Part 43 is about |x|.
@<Part 043 of the program@>=
@=volatile@> int y_51; // a comment
call(x@&_59, 'q', "a@@b");
#define LOCAL 43
x  =  table[64] ;
printf("%d and 3\n", x);
printf("%d and 32\n", x);
c = @'a' + 72;
printf("%d and 14\n", x);
printf("%d and 98\n", x);
for (i = 0; i < 93; i++) {
#define LOCAL 6
if (x > 69) x = 0; /* too large */
call(x@&_91, 'q', "a@@b");
@ Part 44 is about |x|.
@<Part 044 of the program@>=
if (x > 26) x = 0; /* too large */
call(x@&_8, 'q', "a@@b");
#define LOCAL 67
if (x > 9) x = 0; /* too large */
c = @'a' + 82;
printf("%d and 65\n", x);
for (i = 0; i < 2; i++) {
#define LOCAL 47
}  /* 90 times */
call(x@&_28, 'q', "a@@b");
c = @'a' + 76;
}  /* 30 times */
for (i = 0; i < 57; i++) {
@ Part 45 is about |x|.
@<Part 045 of the program@>=
@=volatile@> int y_69; // a comment
c = @'a' + 61;
if (x > 32) x = 0; /* too large */
for (i = 0; i < 25; i++) {
x = x + 95;
x  =  table[98] ;
for (i = 0; i < 65; i++) {
}  /* 9 times */
for (i = 0; i < 78; i++) {
x  =  table[74] ;
#define LOCAL 54
x = x + 45;
}  /* 0 times */
@ Part 46 is about |x|.
@<Part 046 of the program@>=
c = @'a' + 38;
x = x + 69;
if (x > 38) x = 0; /* too large */
x  =  table[95] ;
@=volatile@> int y_99; // a comment
x  =  table[82] ;
#define LOCAL 70
call(x@&_67, 'q', "a@@b");
for (i = 0; i < 69; i++) {
x  =  table[52] ;
#define LOCAL 80
#define LOCAL 39
}  /* 38 times */
@ Part 47 is about |x|.
@(part047.h@>=
printf("%d and 64\n", x);
}  /* 75 times */
printf("%d and 70\n", x);
printf("%d and 32\n", x);
x = x + 54;
#define LOCAL 4
@=volatile@> int y_53; // a comment
for (i = 0; i < 36; i++) {
x = x + 11;
if (x > 0) x = 0; /* too large */
for (i = 0; i < 34; i++) {
}  /* 34 times */
@=volatile@> int y_81; // a comment
@ Part 48 is about |x|.
@<Part 048 of the program@>=
}  /* 98 times */
@=volatile@> int y_49; // a comment
}  /* 14 times */
}  /* 45 times */
printf("%d and 53\n", x);
printf("%d and 2\n", x);
printf("%d and 33\n", x);
@=volatile@> int y_16; // a comment
#define LOCAL 36
for (i = 0; i < 33; i++) {
x  =  table[36] ;
for (i = 0; i < 88; i++) {
call(x@&_55, 'q', "a@@b");
@ Part 49 is about |x|.
@<Part 049 of the program@>=
@=volatile@> int y_99; // a comment
}  /* 27 times */
}  /* 51 times */
for (i = 0; i < 11; i++) {
if (x > 16) x = 0; /* too large */
c = @'a' + 19;
c = @'a' + 93;
x = x + 13;
call(x@&_19, 'q', "a@@b");
}  /* 99 times */
if (x > 51) x = 0; /* too large */
printf("%d and 0\n", x);
if (x > 54) x = 0; /* too large */
@ Part 50 is about |x|.
@<Part 050 of the program@>=
#define LOCAL 6
x  =  table[27] ;
x  =  table[54] ;
@=volatile@> int y_6; // a comment
if (x > 94) x = 0; /* too large */
x  =  table[86] ;
for (i = 0; i < 85; i++) {
if (x > 33) x = 0; /* too large */
call(x@&_22, 'q', "a@@b");
}  /* 90 times */
x = x + 27;
if (x > 49) x = 0; /* too large */
if (x > 85) x = 0; /* too large */
@ Part 51 is about |x|.
@<Part 051 of the program@>=
}  /* 37 times */
x  =  table[63] ;
for (i = 0; i < 14; i++) {
#define LOCAL 61
if (x > 19) x = 0; /* too large */
for (i = 0; i < 78; i++) {
c = @'a' + 21;
x  =  table[32] ;
for (i = 0; i < 95; i++) {
x  =  table[36] ;
}  /* 81 times */
x  =  table[27] ;
#define LOCAL 43
@ Part 52 is about |x|.
@<Part 052 of the program@>=
}  /* 13 times */
x = x + 96;
@=volatile@> int y_90; // a comment
call(x@&_7, 'q', "a@@b");
x  =  table[80] ;
}  /* 38 times */
if (x > 29) x = 0; /* too large */
x  =  table[35] ;
call(x@&_90, 'q', "a@@b");
c = @'a' + 52;
printf("%d and 16\n", x);
call(x@&_24, 'q', "a@@b");
for (i = 0; i < 71; i++) {
@ Part 53 is about |x|.
@<Part 053 of the program@>=
#define LOCAL 7
x  =  table[77] ;
x  =  table[19] ;
for (i = 0; i < 34; i++) {
call(x@&_61, 'q', "a@@b");
call(x@&_34, 'q', "a@@b");
}  /* 27 times */
}  /* 47 times */
#define LOCAL 60
c = @'a' + 43;
printf("%d and 77\n", x);
printf("%d and 94\n", x);
#define LOCAL 88
@ Part 54 is about |x|.
@<Part 054 of the program@>=
}  /* 68 times */
printf("%d and 7\n", x);
x  =  table[41] ;
x  =  table[88] ;
printf("%d and 82\n", x);
c = @'a' + 40;
#define LOCAL 63
}  /* 42 times */
if (x > 16) x = 0; /* too large */
printf("%d and 89\n", x);
call(x@&_28, 'q', "a@@b");
if (x > 81) x = 0; /* too large */
x  =  table[89] ;
@ Part 55 is about |x|.
@<Part 055 of the program@>=
x = x + 72;
printf("%d and 87\n", x);
if (x > 28) x = 0; /* too large */
#define LOCAL 25
x  =  table[72] ;
call(x@&_54, 'q', "a@@b");
@=volatile@> int y_0; // a comment
x = x + 39;
#define LOCAL 28
if (x > 95) x = 0; /* too large */
c = @'a' + 35;
@=volatile@> int y_34; // a comment
#define LOCAL 92
@ Part 56 is about |x|.
@<Part 056 of the program@>=
x  =  table[48] ;
x = x + 15;
@=volatile@> int y_44; // a comment
printf("%d and 14\n", x);
call(x@&_98, 'q', "a@@b");
printf("%d and 87\n", x);
#define LOCAL 5
@=volatile@> int y_9; // a comment
if (x > 92) x = 0; /* too large */
if (x > 38) x = 0; /* too large */
@=volatile@> int y_31; // a comment
call(x@&_67, 'q', "a@@b");
x = x + 46;
@ Part 57 is about |x|.
@<Part 057 of the program@>=
x = x + 10;
printf("%d and 51\n", x);
@=volatile@> int y_92; // a comment
c = @'a' + 12;
@=volatile@> int y_35; // a comment
x = x + 65;
@=volatile@> int y_14; // a comment
@=volatile@> int y_82; // a comment
printf("%d and 77\n", x);
call(x@&_51, 'q', "a@@b");
if (x > 86) x = 0; /* too large */
#define LOCAL 79
x  =  table[60] ;
@ Part 58 is about |x|.
@<Part 058 of the program@>=
#define LOCAL 53
x  =  table[50] ;
call(x@&_28, 'q', "a@@b");
call(x@&_70, 'q', "a@@b");
printf("%d and 6\n", x);
#define LOCAL 65
if (x > 22) x = 0; /* too large */
c = @'a' + 27;
for (i = 0; i < 35; i++) {
x  =  table[2] ;
call(x@&_68, 'q', "a@@b");
call(x@&_67, 'q', "a@@b");
call(x@&_60, 'q', "a@@b");
@ Part 59 is about |x|.
@<Part 059 of the program@>=
printf("%d and 51\n", x);
if (x > 95) x = 0; /* too large */
@=volatile@> int y_8; // a comment
x  =  table[46] ;
x  =  table[71] ;
x  =  table[87] ;
#define LOCAL 3
#define LOCAL 39
}  /* 87 times */
printf("%d and 19\n", x);
if (x > 74) x = 0; /* too large */
printf("%d and 86\n", x);
c = @'a' + 61;
@ Part 60 is about |x|.
@<Part 060 of the program@>=
@=volatile@> int y_46; // a comment
call(x@&_20, 'q', "a@@b");
printf("%d and 48\n", x);
}  /* 51 times */
if (x > 76) x = 0; /* too large */
printf("%d and 34\n", x);
call(x@&_85, 'q', "a@@b");
#define LOCAL 1
x  =  table[1] ;
printf("%d and 48\n", x);
x  =  table[12] ;
}  /* 3 times */
for (i = 0; i < 76; i++) {
@ Part 61 is about |x|.
@<Part 061 of the program@>=
for (i = 0; i < 35; i++) {
@=volatile@> int y_52; // a comment
for (i = 0; i < 77; i++) {
}  /* 6 times */
if (x > 60) x = 0; /* too large */
x = x + 82;
x = x + 5;
if (x > 75) x = 0; /* too large */
printf("%d and 67\n", x);
x  =  table[97] ;
@=volatile@> int y_70; // a comment
call(x@&_72, 'q', "a@@b");
@=volatile@> int y_60; // a comment
@ Part 62 is about |x|.
@<Part 062 of the program@>=
c = @'a' + 79;
c = @'a' + 13;
x  =  table[45] ;
printf("%d and 14\n", x);
x = x + 90;
@=volatile@> int y_54; // a comment
@=volatile@> int y_32; // a comment
x = x + 78;
for (i = 0; i < 53; i++) {
for (i = 0; i < 45; i++) {
call(x@&_96, 'q', "a@@b");
@=volatile@> int y_56; // a comment
c = @'a' + 81;
@ Part 63 is about |x|.
@<Part 063 of the program@>=
#define LOCAL 66
printf("%d and 7\n", x);
@=volatile@> int y_86; // a comment
if (x > 65) x = 0; /* too large */
printf("%d and 69\n", x);
}  /* 43 times */
if (x > 74) x = 0; /* too large */
x = x + 61;
c = @'a' + 49;
printf("%d and 50\n", x);
c = @'a' + 12;
c = @'a' + 42;
@=volatile@> int y_84; // a comment
@ Part 64 is about |x|.
@<Part 064 of the program@>=
c = @'a' + 86;
}  /* 95 times */
}  /* 47 times */
}  /* 83 times */
c = @'a' + 55;
}  /* 51 times */
x  =  table[15] ;
#define LOCAL 62
call(x@&_16, 'q', "a@@b");
printf("%d and 1\n", x);
for (i = 0; i < 53; i++) {
if (x > 3) x = 0; /* too large */
if (x > 23) x = 0; /* too large */
@ Part 65 is about |x|.
@<Part 065 of the program@>=
}  /* 98 times */
for (i = 0; i < 85; i++) {
x  =  table[36] ;
printf("%d and 19\n", x);
x  =  table[13] ;
call(x@&_2, 'q', "a@@b");
}  /* 50 times */
c = @'a' + 68;
for (i = 0; i < 0; i++) {
x  =  table[31] ;
for (i = 0; i < 20; i++) {
printf("%d and 43\n", x);
c = @'a' + 9;
@ Part 66 is about |x|.
@<Part 066 of the program@>=
x  =  table[71] ;
printf("%d and 22\n", x);
for (i = 0; i < 74; i++) {
x = x + 65;
c = @'a' + 54;
c = @'a' + 5;
x  =  table[92] ;
c = @'a' + 89;
x  =  table[88] ;
#define LOCAL 83
x  =  table[9] ;
c = @'a' + 50;
}  /* 15 times */
@ Part 67 is about |x|.
@<Part 067 of the program@>=
#define LOCAL 82
x = x + 49;
if (x > 71) x = 0; /* too large */
if (x > 82) x = 0; /* too large */
}  /* 5 times */
x  =  table[30] ;
x = x + 2;
call(x@&_59, 'q', "a@@b");
call(x@&_92, 'q', "a@@b");
for (i = 0; i < 21; i++) {
#define LOCAL 17
x  =  table[90] ;
@=volatile@> int y_98; // a comment
@ Part 68 is about |x|.
@<Part 068 of the program@>=
x  =  table[81] ;
}  /* 64 times */
for (i = 0; i < 70; i++) {
printf("%d and 89\n", x);
for (i = 0; i < 89; i++) {
for (i = 0; i < 25; i++) {
}  /* 35 times */
@=volatile@> int y_19; // a comment
call(x@&_72, 'q', "a@@b");
call(x@&_22, 'q', "a@@b");
#define LOCAL 10
@=volatile@> int y_43; // a comment
printf("%d and 33\n", x);
@ Part 69 is about |x|.
@<Part 069 of the program@>=
call(x@&_32, 'q', "a@@b");
@=volatile@> int y_49; // a comment
call(x@&_72, 'q', "a@@b");
}  /* 1 times */
printf("%d and 16\n", x);
call(x@&_28, 'q', "a@@b");
c = @'a' + 9;
#define LOCAL 68
#define LOCAL 25
x  =  table[54] ;
c = @'a' + 73;
printf("%d and 70\n", x);
}  /* 50 times */
@ Part 70 is about |x|.
@<Part 070 of the program@>=
c = @'a' + 10;
if (x > 19) x = 0; /* too large */
x = x + 3;
for (i = 0; i < 48; i++) {
for (i = 0; i < 87; i++) {
printf("%d and 75\n", x);
#define LOCAL 16
x  =  table[69] ;
if (x > 30) x = 0; /* too large */
for (i = 0; i < 17; i++) {
call(x@&_25, 'q', "a@@b");
for (i = 0; i < 45; i++) {
printf("%d and 28\n", x);
@ Part 71 is about |x|.
@<Part 071 of the program@>=
call(x@&_90, 'q', "a@@b");
printf("%d and 44\n", x);
}  /* 68 times */
call(x@&_11, 'q', "a@@b");
x  =  table[38] ;
c = @'a' + 90;
}  /* 2 times */
call(x@&_79, 'q', "a@@b");
#define LOCAL 13
#define LOCAL 47
}  /* 32 times */
#define LOCAL 7
x = x + 40;
@ Part 72 is about |x|.
@<Part 072 of the program@>=
printf("%d and 16\n", x);
if (x > 14) x = 0; /* too large */
for (i = 0; i < 81; i++) {
#define LOCAL 31
c = @'a' + 64;
x  =  table[50] ;
if (x > 90) x = 0; /* too large */
c = @'a' + 49;
x  =  table[17] ;
#define LOCAL 32
x = x + 91;
if (x > 25) x = 0; /* too large */
#define LOCAL 48
@ Part 73 is about |x|.
@<Part 073 of the program@>=
}  /* 69 times */
#define LOCAL 29
call(x@&_4, 'q', "a@@b");
printf("%d and 85\n", x);
x  =  table[64] ;
c = @'a' + 52;
call(x@&_98, 'q', "a@@b");
for (i = 0; i < 51; i++) {
call(x@&_63, 'q', "a@@b");
if (x > 85) x = 0; /* too large */
printf("%d and 23\n", x);
x  =  table[2] ;
}  /* 96 times */
@ Part 74 is about |x|.
@<Part 074 of the program@>=
x = x + 62;
c = @'a' + 50;
x  =  table[43] ;
c = @'a' + 12;
if (x > 86) x = 0; /* too large */
x = x + 54;
}  /* 24 times */
printf("%d and 76\n", x);
x  =  table[24] ;
x  =  table[49] ;
x  =  table[46] ;
c = @'a' + 29;
@=volatile@> int y_84; // a comment
@ Part 75 is about |x|.
@<Part 075 of the program@>=
#define LOCAL 96
if (x > 43) x = 0; /* too large */
x = x + 58;
x = x + 78;
printf("%d and 18\n", x);
call(x@&_60, 'q', "a@@b");
x = x + 74;
x  =  table[8] ;
#define LOCAL 50
if (x > 51) x = 0; /* too large */
x  =  table[73] ;
call(x@&_50, 'q', "a@@b");
call(x@&_45, 'q', "a@@b");
@ Part 76 is about |x|.
@<Part 076 of the program@>=
}  /* 6 times */
x  =  table[61] ;
x = x + 54;
call(x@&_75, 'q', "a@@b");
@=volatile@> int y_19; // a comment
#define LOCAL 75
x  =  table[35] ;
if (x > 77) x = 0; /* too large */
@=volatile@> int y_53; // a comment
for (i = 0; i < 66; i++) {
x = x + 73;
#define LOCAL 14
x = x + 73;
@ Part 77 is about |x|.
@<Part 077 of the program@>=
x  =  table[1] ;
if (x > 42) x = 0; /* too large */
@=volatile@> int y_47; // a comment
x  =  table[4] ;
@=volatile@> int y_74; // a comment
if (x > 62) x = 0; /* too large */
if (x > 69) x = 0; /* too large */
}  /* 42 times */
x  =  table[69] ;
x = x + 20;
@=volatile@> int y_46; // a comment
c = @'a' + 18;
#define LOCAL 18
@ Part 78 is about |x|.
@<Part 078 of the program@>=
#define LOCAL 13
for (i = 0; i < 40; i++) {
x  =  table[53] ;
@=volatile@> int y_43; // a comment
call(x@&_77, 'q', "a@@b");
@=volatile@> int y_4; // a comment
if (x > 98) x = 0; /* too large */
c = @'a' + 33;
for (i = 0; i < 70; i++) {
call(x@&_73, 'q', "a@@b");
#define LOCAL 10
if (x > 90) x = 0; /* too large */
printf("%d and 34\n", x);
@ Part 79 is about |x|.
@<Part 079 of the program@>=
for (i = 0; i < 10; i++) {
printf("%d and 36\n", x);
x  =  table[92] ;
call(x@&_30, 'q', "a@@b");
c = @'a' + 12;
call(x@&_92, 'q', "a@@b");
}  /* 6 times */
x  =  table[38] ;
c = @'a' + 69;
if (x > 70) x = 0; /* too large */
@=volatile@> int y_43; // a comment
call(x@&_66, 'q', "a@@b");
printf("%d and 4\n", x);
@ Part 80 is about |x|.
@<Part 080 of the program@>=
}  /* 46 times */
x = x + 3;
@=volatile@> int y_53; // a comment
printf("%d and 71\n", x);
x = x + 90;
#define LOCAL 89
x  =  table[54] ;
printf("%d and 25\n", x);
c = @'a' + 14;
#define LOCAL 16
#define LOCAL 64
if (x > 92) x = 0; /* too large */
call(x@&_58, 'q', "a@@b");
@ Part 81 is about |x|.
@<Part 081 of the program@>=
c = @'a' + 7;
@=volatile@> int y_58; // a comment
@=volatile@> int y_78; // a comment
@=volatile@> int y_28; // a comment
x = x + 1;
}  /* 4 times */
printf("%d and 32\n", x);
x  =  table[5] ;
x = x + 29;
if (x > 67) x = 0; /* too large */
printf("%d and 4\n", x);
x  =  table[25] ;
c = @'a' + 56;
@ Part 82 is about |x|.
@<Part 082 of the program@>=
call(x@&_31, 'q', "a@@b");
}  /* 64 times */
@=volatile@> int y_41; // a comment
for (i = 0; i < 83; i++) {
if (x > 24) x = 0; /* too large */
#define LOCAL 23
c = @'a' + 87;
#define LOCAL 38
#define LOCAL 54
#define LOCAL 60
@=volatile@> int y_2; // a comment
}  /* 2 times */
if (x > 84) x = 0; /* too large */
@ Part 83 is about |x|.
@<Part 083 of the program@>=
#define LOCAL 85
#define LOCAL 55
#define LOCAL 43
@=volatile@> int y_9; // a comment
for (i = 0; i < 24; i++) {
x  =  table[63] ;
#define LOCAL 72
x  =  table[64] ;
}  /* 76 times */
#define LOCAL 98
}  /* 77 times */
}  /* 21 times */
call(x@&_86, 'q', "a@@b");
@ Part 84 is about |x|.
@<Part 084 of the program@>=
x  =  table[38] ;
#define LOCAL 97
for (i = 0; i < 77; i++) {
x  =  table[33] ;
call(x@&_39, 'q', "a@@b");
x = x + 77;
x = x + 58;
}  /* 45 times */
c = @'a' + 65;
}  /* 26 times */
}  /* 42 times */
printf("%d and 49\n", x);
for (i = 0; i < 6; i++) {
@ Part 85 is about |x|.
@<Part 085 of the program@>=
if (x > 45) x = 0; /* too large */
x = x + 32;
x  =  table[94] ;
x = x + 39;
for (i = 0; i < 1; i++) {
@=volatile@> int y_43; // a comment
call(x@&_75, 'q', "a@@b");
x = x + 26;
if (x > 42) x = 0; /* too large */
if (x > 85) x = 0; /* too large */
if (x > 16) x = 0; /* too large */
call(x@&_52, 'q', "a@@b");
#define LOCAL 43
@ Part 86 is about |x|.
@<Part 086 of the program@>=
c = @'a' + 3;
printf("%d and 96\n", x);
x  =  table[95] ;
#define LOCAL 82
@=volatile@> int y_38; // a comment
call(x@&_48, 'q', "a@@b");
for (i = 0; i < 67; i++) {
}  /* 9 times */
c = @'a' + 52;
c = @'a' + 77;
x = x + 79;
c = @'a' + 80;
c = @'a' + 31;
@ Part 87 is about |x|.
@(part087.h@>=
for (i = 0; i < 48; i++) {
c = @'a' + 79;
printf("%d and 92\n", x);
call(x@&_95, 'q', "a@@b");
@=volatile@> int y_0; // a comment
call(x@&_56, 'q', "a@@b");
}  /* 21 times */
printf("%d and 3\n", x);
@=volatile@> int y_55; // a comment
x  =  table[43] ;
x  =  table[62] ;
@=volatile@> int y_77; // a comment
if (x > 74) x = 0; /* too large */
@ Part 88 is about |x|.
@<Part 088 of the program@>=
call(x@&_70, 'q', "a@@b");
call(x@&_54, 'q', "a@@b");
x = x + 39;
if (x > 81) x = 0; /* too large */
}  /* 14 times */
x  =  table[28] ;
#define LOCAL 95
call(x@&_55, 'q', "a@@b");
@=volatile@> int y_29; // a comment
x = x + 13;
#define LOCAL 65
x  =  table[65] ;
printf("%d and 16\n", x);
@ Part 89 is about |x|.
@<Part 089 of the program@>=
call(x@&_6, 'q', "a@@b");
if (x > 27) x = 0; /* too large */
x = x + 86;
x = x + 54;
x = x + 8;
x = x + 1;
x = x + 68;
@=volatile@> int y_42; // a comment
x = x + 78;
x = x + 71;
c = @'a' + 60;
c = @'a' + 34;
call(x@&_74, 'q', "a@@b");
@ Part 90 is about |x|.
@<Part 090 of the program@>=
x  =  table[66] ;
call(x@&_29, 'q', "a@@b");
printf("%d and 26\n", x);
for (i = 0; i < 7; i++) {
c = @'a' + 71;
}  /* 4 times */
@=volatile@> int y_41; // a comment
for (i = 0; i < 15; i++) {
x = x + 72;
printf("%d and 64\n", x);
if (x > 97) x = 0; /* too large */
printf("%d and 27\n", x);
c = @'a' + 22;
@ Part 91 is about |x|.
@<Part 091 of the program@>=
call(x@&_12, 'q', "a@@b");
x = x + 40;
printf("%d and 8\n", x);
}  /* 19 times */
c = @'a' + 5;
call(x@&_44, 'q', "a@@b");
x = x + 75;
if (x > 56) x = 0; /* too large */
c = @'a' + 29;
printf("%d and 15\n", x);
x = x + 25;
x = x + 95;
if (x > 11) x = 0; /* too large */
@ Part 92 is about |x|.
@<Part 092 of the program@>=
c = @'a' + 36;
call(x@&_67, 'q', "a@@b");
for (i = 0; i < 31; i++) {
x = x + 92;
call(x@&_97, 'q', "a@@b");
c = @'a' + 41;
@=volatile@> int y_45; // a comment
}  /* 97 times */
#define LOCAL 48
for (i = 0; i < 11; i++) {
for (i = 0; i < 31; i++) {
}  /* 43 times */
printf("%d and 77\n", x);
@ Part 93 is about |x|.
@<Part 093 of the program@>=
if (x > 30) x = 0; /* too large */
if (x > 98) x = 0; /* too large */
for (i = 0; i < 35; i++) {
x  =  table[38] ;
@=volatile@> int y_96; // a comment
@=volatile@> int y_52; // a comment
}  /* 46 times */
@=volatile@> int y_40; // a comment
for (i = 0; i < 60; i++) {
x  =  table[2] ;
@=volatile@> int y_16; // a comment
call(x@&_21, 'q', "a@@b");
call(x@&_72, 'q', "a@@b");
@ Part 94 is about |x|.
@<Part 094 of the program@>=
printf("%d and 70\n", x);
printf("%d and 21\n", x);
}  /* 82 times */
printf("%d and 17\n", x);
printf("%d and 10\n", x);
#define LOCAL 32
c = @'a' + 45;
@=volatile@> int y_21; // a comment
call(x@&_60, 'q', "a@@b");
call(x@&_9, 'q', "a@@b");
for (i = 0; i < 19; i++) {
x  =  table[45] ;
}  /* 13 times */
@ Part 95 is about |x|.
@<Part 095 of the program@>=
printf("%d and 87\n", x);
@=volatile@> int y_8; // a comment
printf("%d and 61\n", x);
x  =  table[4] ;
x = x + 92;
c = @'a' + 83;
@=volatile@> int y_94; // a comment
@=volatile@> int y_64; // a comment
@=volatile@> int y_64; // a comment
@=volatile@> int y_43; // a comment
if (x > 23) x = 0; /* too large */
for (i = 0; i < 4; i++) {
call(x@&_78, 'q', "a@@b");
@ Part 96 is about |x|.
@<Part 096 of the program@>=
c = @'a' + 7;
c = @'a' + 38;
@=volatile@> int y_72; // a comment
for (i = 0; i < 31; i++) {
@=volatile@> int y_98; // a comment
x = x + 29;
call(x@&_89, 'q', "a@@b");
#define LOCAL 0
c = @'a' + 12;
printf("%d and 28\n", x);
@=volatile@> int y_64; // a comment
call(x@&_18, 'q', "a@@b");
printf("%d and 29\n", x);
@ Part 97 is about |x|.
@<Part 097 of the program@>=
if (x > 39) x = 0; /* too large */
#define LOCAL 65
x  =  table[69] ;
#define LOCAL 69
for (i = 0; i < 56; i++) {
#define LOCAL 65
}  /* 23 times */
x  =  table[45] ;
c = @'a' + 55;
if (x > 35) x = 0; /* too large */
c = @'a' + 29;
printf("%d and 17\n", x);
c = @'a' + 2;
@ Part 98 is about |x|.
@<Part 098 of the program@>=
printf("%d and 62\n", x);
@=volatile@> int y_23; // a comment
x = x + 46;
if (x > 78) x = 0; /* too large */
c = @'a' + 86;
c = @'a' + 11;
}  /* 82 times */
c = @'a' + 77;
@=volatile@> int y_21; // a comment
#define LOCAL 88
x = x + 27;
@=volatile@> int y_61; // a comment
x  =  table[4] ;
@ Part 99 is about |x|.
@<Part 099 of the program@>=
x = x + 46;
}  /* 71 times */
@=volatile@> int y_17; // a comment
}  /* 8 times */
x  =  table[40] ;
#define LOCAL 85
call(x@&_77, 'q', "a@@b");
@=volatile@> int y_73; // a comment
if (x > 61) x = 0; /* too large */
@=volatile@> int y_53; // a comment
if (x > 33) x = 0; /* too large */
if (x > 84) x = 0; /* too large */
@=volatile@> int y_2; // a comment
@ Part 100 is about |x|.
@<Part 100 of the program@>=
printf("%d and 41\n", x);
c = @'a' + 40;
call(x@&_32, 'q', "a@@b");
call(x@&_62, 'q', "a@@b");
for (i = 0; i < 1; i++) {
call(x@&_20, 'q', "a@@b");
call(x@&_6, 'q', "a@@b");
if (x > 55) x = 0; /* too large */
for (i = 0; i < 78; i++) {
c = @'a' + 35;
@=volatile@> int y_98; // a comment
#define LOCAL 63
#define LOCAL 36
@ Part 101 is about |x|.
@<Part 101 of the program@>=
#define LOCAL 32
printf("%d and 41\n", x);
printf("%d and 45\n", x);
if (x > 50) x = 0; /* too large */
@=volatile@> int y_66; // a comment
#define LOCAL 89
c = @'a' + 50;
}  /* 19 times */
}  /* 89 times */
c = @'a' + 4;
c = @'a' + 10;
if (x > 4) x = 0; /* too large */
x  =  table[64] ;
@ Part 102 is about |x|.
@<Part 102 of the program@>=
}  /* 72 times */
}  /* 89 times */
@=volatile@> int y_66; // a comment
printf("%d and 72\n", x);
}  /* 50 times */
x = x + 49;
x  =  table[92] ;
x  =  table[94] ;
}  /* 21 times */
#define LOCAL 75
@=volatile@> int y_6; // a comment
@=volatile@> int y_45; // a comment
}  /* 30 times */
@ Part 103 is about |x|.
@<Part 103 of the program@>=
x  =  table[38] ;
if (x > 56) x = 0; /* too large */
@=volatile@> int y_24; // a comment
printf("%d and 17\n", x);
}  /* 5 times */
@=volatile@> int y_72; // a comment
@=volatile@> int y_22; // a comment
#define LOCAL 62
}  /* 1 times */
#define LOCAL 29
#define LOCAL 7
}  /* 83 times */
printf("%d and 65\n", x);
@ Part 104 is about |x|.
@<Part 104 of the program@>=
c = @'a' + 51;
}  /* 15 times */
@=volatile@> int y_33; // a comment
printf("%d and 21\n", x);
@=volatile@> int y_16; // a comment
printf("%d and 94\n", x);
#define LOCAL 67
call(x@&_29, 'q', "a@@b");
x  =  table[90] ;
for (i = 0; i < 59; i++) {
}  /* 65 times */
x  =  table[39] ;
printf("%d and 66\n", x);
@ Part 105 is about |x|.
@<Part 105 of the program@>=
#define LOCAL 64
call(x@&_75, 'q', "a@@b");
c = @'a' + 36;
printf("%d and 87\n", x);
x = x + 43;
if (x > 54) x = 0; /* too large */
for (i = 0; i < 91; i++) {
x  =  table[94] ;
printf("%d and 79\n", x);
}  /* 57 times */
x  =  table[56] ;
@=volatile@> int y_26; // a comment
x = x + 10;
@ Part 106 is about |x|.
@<Part 106 of the program@>=
if (x > 12) x = 0; /* too large */
x  =  table[49] ;
printf("%d and 56\n", x);
for (i = 0; i < 23; i++) {
}  /* 57 times */
x  =  table[75] ;
x = x + 75;
c = @'a' + 75;
}  /* 62 times */
for (i = 0; i < 37; i++) {
@=volatile@> int y_99; // a comment
printf("%d and 76\n", x);
call(x@&_23, 'q', "a@@b");
@ Part 107 is about |x|.
@<Part 107 of the program@>=
x = x + 71;
x = x + 85;
if (x > 70) x = 0; /* too large */
c = @'a' + 57;
@=volatile@> int y_56; // a comment
@=volatile@> int y_95; // a comment
if (x > 49) x = 0; /* too large */
x = x + 95;
}  /* 35 times */
for (i = 0; i < 59; i++) {
@=volatile@> int y_64; // a comment
if (x > 21) x = 0; /* too large */
for (i = 0; i < 69; i++) {
@ Part 108 is about |x|.
@<Part 108 of the program@>=
for (i = 0; i < 78; i++) {
}  /* 64 times */
printf("%d and 40\n", x);
printf("%d and 44\n", x);
printf("%d and 78\n", x);
c = @'a' + 28;
c = @'a' + 58;
printf("%d and 13\n", x);
if (x > 54) x = 0; /* too large */
x = x + 58;
printf("%d and 47\n", x);
x  =  table[41] ;
call(x@&_50, 'q', "a@@b");
@ Part 109 is about |x|.
@<Part 109 of the program@>=
x = x + 49;
}  /* 91 times */
}  /* 38 times */
call(x@&_82, 'q', "a@@b");
#define LOCAL 49
@=volatile@> int y_96; // a comment
call(x@&_22, 'q', "a@@b");
if (x > 62) x = 0; /* too large */
printf("%d and 57\n", x);
printf("%d and 58\n", x);
if (x > 68) x = 0; /* too large */
if (x > 68) x = 0; /* too large */
@=volatile@> int y_40; // a comment
@ Part 110 is about |x|.
@<Part 110 of the program@>=
}  /* 86 times */
x  =  table[81] ;
@=volatile@> int y_92; // a comment
#define LOCAL 40
x  =  table[75] ;
}  /* 41 times */
}  /* 88 times */
for (i = 0; i < 68; i++) {
c = @'a' + 21;
c = @'a' + 68;
c = @'a' + 76;
c = @'a' + 6;
@=volatile@> int y_79; // a comment
@ Part 111 is about |x|.
@<Part 111 of the program@>=
x = x + 42;
for (i = 0; i < 3; i++) {
@=volatile@> int y_46; // a comment
@=volatile@> int y_76; // a comment
#define LOCAL 84
for (i = 0; i < 26; i++) {
call(x@&_28, 'q', "a@@b");
@=volatile@> int y_50; // a comment
for (i = 0; i < 85; i++) {
printf("%d and 1\n", x);
for (i = 0; i < 83; i++) {
@=volatile@> int y_77; // a comment
#define LOCAL 28
@ Part 112 is about |x|.
@<Part 112 of the program@>=
c = @'a' + 8;
#define LOCAL 40
for (i = 0; i < 26; i++) {
call(x@&_12, 'q', "a@@b");
for (i = 0; i < 0; i++) {
@=volatile@> int y_11; // a comment
for (i = 0; i < 19; i++) {
if (x > 68) x = 0; /* too large */
printf("%d and 96\n", x);
@=volatile@> int y_18; // a comment
for (i = 0; i < 55; i++) {
@=volatile@> int y_69; // a comment
x  =  table[35] ;
@ Part 113 is about |x|.
@<Part 113 of the program@>=
c = @'a' + 24;
printf("%d and 21\n", x);
x  =  table[20] ;
printf("%d and 15\n", x);
}  /* 74 times */
x  =  table[16] ;
for (i = 0; i < 17; i++) {
@=volatile@> int y_77; // a comment
@=volatile@> int y_76; // a comment
printf("%d and 2\n", x);
@=volatile@> int y_99; // a comment
printf("%d and 28\n", x);
c = @'a' + 88;
@ Part 114 is about |x|.
@<Part 114 of the program@>=
}  /* 75 times */
}  /* 4 times */
if (x > 17) x = 0; /* too large */
x  =  table[60] ;
#define LOCAL 18
c = @'a' + 46;
printf("%d and 35\n", x);
@=volatile@> int y_8; // a comment
for (i = 0; i < 60; i++) {
x = x + 67;
}  /* 25 times */
c = @'a' + 26;
x = x + 92;
@ Part 115 is about |x|.
@<Part 115 of the program@>=
call(x@&_5, 'q', "a@@b");
call(x@&_66, 'q', "a@@b");
c = @'a' + 9;
if (x > 98) x = 0; /* too large */
if (x > 51) x = 0; /* too large */
@=volatile@> int y_13; // a comment
}  /* 91 times */
#define LOCAL 66
}  /* 85 times */
call(x@&_18, 'q', "a@@b");
for (i = 0; i < 47; i++) {
@=volatile@> int y_96; // a comment
for (i = 0; i < 52; i++) {
@ Part 116 is about |x|.
@<Part 116 of the program@>=
for (i = 0; i < 47; i++) {
x  =  table[26] ;
c = @'a' + 8;
printf("%d and 30\n", x);
c = @'a' + 2;
c = @'a' + 85;
for (i = 0; i < 58; i++) {
#define LOCAL 56
#define LOCAL 12
x = x + 22;
x  =  table[0] ;
x = x + 55;
call(x@&_53, 'q', "a@@b");
@ Part 117 is about |x|.
@<Part 117 of the program@>=
printf("%d and 30\n", x);
@=volatile@> int y_53; // a comment
@=volatile@> int y_74; // a comment
x = x + 64;
}  /* 16 times */
x  =  table[46] ;
#define LOCAL 7
@=volatile@> int y_15; // a comment
c = @'a' + 81;
if (x > 55) x = 0; /* too large */
printf("%d and 2\n", x);
@=volatile@> int y_16; // a comment
printf("%d and 36\n", x);
@ Part 118 is about |x|.
@<Part 118 of the program@>=
x = x + 60;
x = x + 61;
if (x > 96) x = 0; /* too large */
#define LOCAL 55
if (x > 60) x = 0; /* too large */
x  =  table[77] ;
x  =  table[12] ;
printf("%d and 68\n", x);
for (i = 0; i < 82; i++) {
#define LOCAL 69
for (i = 0; i < 30; i++) {
x  =  table[48] ;
}  /* 93 times */
@ Part 119 is about |x|.
@<Part 119 of the program@>=
@=volatile@> int y_56; // a comment
if (x > 8) x = 0; /* too large */
c = @'a' + 75;
#define LOCAL 89
@=volatile@> int y_13; // a comment
if (x > 45) x = 0; /* too large */
if (x > 25) x = 0; /* too large */
if (x > 88) x = 0; /* too large */
#define LOCAL 11
x = x + 65;
for (i = 0; i < 30; i++) {
if (x > 39) x = 0; /* too large */
}  /* 78 times */
x = x + 73;
for (i = 0; i < 71; i++) {
call(x@&_50, 'q', "a@@b");
x = x + 85;
#define LOCAL 3
call(x@&_79, 'q', "a@@b");
}  /* 56 times */
c = @'a' + 34;
@=volatile@> int y_99; // a comment
}  /* 56 times */
x  =  table[7] ;
call(x@&_65, 'q', "a@@b");
printf("%d and 95\n", x);
}  /* 58 times */
call(x@&_74, 'q', "a@@b");
#define LOCAL 23
@=volatile@> int y_65; // a comment
for (i = 0; i < 97; i++) {
for (i = 0; i < 87; i++) {
x  =  table[76] ;
for (i = 0; i < 61; i++) {
c = @'a' + 39;
x = x + 8;
printf("%d and 63\n", x);
if (x > 46) x = 0; /* too large */
call(x@&_39, 'q', "a@@b");
x  =  table[38] ;
printf("%d and 13\n", x);
x  =  table[17] ;
}  /* 4 times */
}  /* 60 times */
#define LOCAL 41
x  =  table[47] ;
printf("%d and 91\n", x);
x = x + 68;
c = @'a' + 98;
call(x@&_79, 'q', "a@@b");
if (x > 59) x = 0; /* too large */
call(x@&_1, 'q', "a@@b");
call(x@&_92, 'q', "a@@b");
x  =  table[88] ;
x = x + 72;
for (i = 0; i < 14; i++) {
if (x > 87) x = 0; /* too large */
@=volatile@> int y_77; // a comment
#define LOCAL 81
#define LOCAL 57
if (x > 78) x = 0; /* too large */
}  /* 67 times */
@=volatile@> int y_75; // a comment
x = x + 24;
printf("%d and 7\n", x);
#define LOCAL 14
x = x + 15;
