@ A.
@d F a @<A@> b @<A@>
@d G
@<A@>=
x
@ B.
@d 3 @<A@>
@d H h@<A
@ C.
@c
@<A@>
