@ A.
@c
#define M a \ /* one
two */ b
#define N a \@^index@>
@^index@>b
#define P a \/* one
two */b
#define Q a \
/* one */b
#define R a @=\@> // one
  b
#define S a \@&
  b
#define T a \
  @&b
#define U a \
/* one
two */ b
#define V a\
@<b@>
@=#define W\@>
	@'a'
#define X a \
b
m a \ /* one
two */ b
p a \/* one
two */b
u a \
/* one
two */ b
z \
@ @<b@>=
x\
