@ A.
@d N 10
@c
@h
x=@<v@>;
a@&
b;
c;
@i b.w
old;
@ @<v@>=
1
@ @(h.h@>=
@<v@>
