@ A.
@d A x
\
@d B x \ \
 \

@d C x @=\@>y \
@d D
\
@d E(x) \ x
@d F"s\
"\
@d G x @=\@>

@c
y
