@ A program whose macros have several lines, each of which a C compiler reads as one.
@d limit
3
@d larger(a, b) (a) > (b)
  ? (a)
  : (b)
@d is_odd(x) return
  (x) % 2 == 1
@d say
  printf("%d %s\n",
@d swap(a, b) do { /* exchanges
  two numbers */ int kept = a;
  a = b;
  b = kept;
} while
  (0)
@d plus@&_one(x) x -
  -1
@d text "one"
  @=" two"@>
  "" " three"
@d else@&_say else
  say
@d letter @'A'
  + 1 \

@d count_in(t) (int)
(sizeof
t /
sizeof
*t)

@ The first definition is changed, and the second one has lines of its own.
@c
#include <stdio.h>
#define FOR(i) for (int\
  i = 0; i\
 < limit; \
i++)
@<Definitions@>@;
@<Functions@>@;
int main(void) {
  int one = 1, two = 2;
  int many[] = { 5, 6, 7, 8 };
  FOR(k) TRIPLE(k);
  swap(one, two);
  say larger(one, two), "larger");
  say plus_one(two), text);
  if (odd(4)) say 4, "odd"); else_say 4, "even");
  if (odd(7)) say 7, "odd"); else_say 7, "even");
  printf("%c\n", letter);
  say count_in(many), "in all");
  return 0;
}

@ @<Functions@>=
static int odd(int n) { is_odd(n); }

@ @<Definitions@>=
#define TRIPLE(x) \
  say 3 * x,\
  "old" \
  )
