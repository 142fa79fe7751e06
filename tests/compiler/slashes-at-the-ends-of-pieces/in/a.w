@ A slash at the end of a piece opens no comment with the closing mark after it.
@c
x = y@<over@>z;
w = @<under@>v;
@ @<over@>=/@ @<under@>=@=u /@>@ Nor does one before a line end that a backslash takes away.
@c
#define over /\
@ After it.
@c
t = s over r;
