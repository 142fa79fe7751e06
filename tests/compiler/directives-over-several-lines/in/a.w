@ Comments and control texts over line ends in lines for the preprocessor.
@c
#if 1 /* one
two */ && !0
#define larger(a, b) ((a) > (b) /* the first
  one */ ? (a)@^maximum
  of two@> : (b))
#else/*
*/
#error not read
#endif /* 1
  && !0 */
m = larger(x, y); line = __LINE__;
# /* its
  name */ include /* is
  */ "b.h"
#/* here
*/include/* too
*/<b.h>
#define next /* and
  a line that a backslash continues */ \
  __LINE__ + @t one
  \TeX\ text@>1
n = next; file = __FILE__;
/* not a directive
*/ k = 2 - next;
#undef/*
*/next
p = next;
@ @(b.h@>=
read += 1;
