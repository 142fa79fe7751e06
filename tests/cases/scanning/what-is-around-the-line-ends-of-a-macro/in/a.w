@ A.
@d A@&1 /* c
*/ x @^i@>
@, y
@d B x@&
y
@d C x
@&y
@d D @'a'
@'b'
@d E @=x@>
@=y@>
@d F(x) x // c
(x)
@d G/* c
*/x
@d H @=u\@>
v
@d I@=J@>
x
@d K -> L

/* c */
.m
@c
z
