@ Each pair of kinds over a line end that a backslash continues, apart by white space after it.
@c
#define SEPARATOR_SEPARATOR {\
  }
#define SEPARATOR_OPERATOR )\
  *
#define SEPARATOR_PLAIN {\
  do
#define SEPARATOR_OTHER [\
  10
#define OPERATOR_SEPARATOR =\
  {
#define OPERATOR_OPERATOR +\
  +
#define OPERATOR_PLAIN *\
  x
#define OPERATOR_OTHER <\
  @=<@>
#define PLAIN_SEPARATOR f\
  (
#define PLAIN_OPERATOR x\
  -
#define PLAIN_PLAIN else\
  x
#define PLAIN_OTHER x\
  10
#define OTHER_SEPARATOR 10\
  ;
#define OTHER_OPERATOR 1e\
  +5
#define OTHER_PLAIN 10\
  x
#define OTHER_OTHER 1\
  .5
int after_the_first_pairs;

@ The same items apart by white space before the backslash, and some that nothing keeps apart.
@c
#define BEFORE_SEPARATOR_SEPARATOR { \
}
#define BEFORE_OPERATOR_OPERATOR + \
+
#define BEFORE_OPERATOR_OTHER < \
@=<@>
#define BEFORE_PLAIN_PLAIN else \
x
#define BEFORE_PLAIN_OTHER x \
10
#define BEFORE_OTHER_OPERATOR 1e \
+5
#define BEFORE_OTHER_PLAIN 10 \
x
#define BEFORE_OTHER_OTHER 1 \
.5
#define ONE_WORD el\
se
#define ONE_OPERATOR +\
+
#define ONE_NUMBER 1\
.5
#define NAME\
  (f)
#define NAME_AND_PARAMETER\
(x) x
#define VERBATIM x@=y\@>
  z
#define OVER_COMMENTS else/* one
*/ x @^index@>\@^index@>
@^index@>y
#define MANY a \
  b\
  c \
d\
\
  e
#define BLANK_LINE f \

g
int after_the_last_pairs;
