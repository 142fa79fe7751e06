@ A.
@c
#define M a \
  b \
  c
int m;
#define N a \
b
int n;
#define P a \
  b \
@i b.w
  c
int p;
#define Q a \
last \
(b)
int q;
#define R a \
int r;
