@ A.
@c
#define M a /* one
two */ b \
  c
x /* three
four */ y
