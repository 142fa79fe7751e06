@x
  b \
@y
  b1 \
  b2 \
@z
@x
b
@y
 q
int r;
@z
@x
last \
@y
@z
@x
#define R a \
@y
#define R b \

@z
