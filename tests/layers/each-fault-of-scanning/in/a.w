@;@ A.
@d M @h 1
@d 2@<v@>
@c
x @d @'ab' R"p@q
@=r@s
#@<v@>= @^t@,
/* u @
@c
@<w
