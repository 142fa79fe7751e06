@ Each pair of kinds over a line end of a macro. The name begins with the kind of the item before it.
@d SEPARATOR_SEPARATOR {
}
@d SEPARATOR_OPERATOR )
*
@d SEPARATOR_PLAIN {
do
@d SEPARATOR_OTHER [
10
@d OPERATOR_SEPARATOR =
{
@d OPERATOR_OPERATOR +
+
@d OPERATOR_PLAIN *
x
@d OPERATOR_OTHER <
@=<@>
@d PLAIN_SEPARATOR f
(
@d PLAIN_OPERATOR x
-
@d PLAIN_PLAIN else
x
@d PLAIN_OTHER x
10
@d OTHER_SEPARATOR 10
;
@d OTHER_OPERATOR 1e
+5
@d OTHER_PLAIN 10
x
@d OTHER_OTHER 1
.5

@ The forms that a table of kinds can get wrong.
@d PREFIX_AND_TEXT L
"s"
@d TEXT_AND_TEXT "s"
"t"
@d POINT_AND_LETTER 1.
x
@d CONSTANT_AND_LETTER @'A'
L
@d BACKSLASH_AND_LETTER \
u00e9
@d VERBATIM_AND_LETTER @=w\@>
u00e9
@d DIGRAPH <
:
@d NUMBER_SIGNS #
#x
@d COMMENT_SIGNS x /
*y
@d FUNCTION(x) if
  x/* over
  lines */else
  #x
@d INDENTED else
  x
@d ON_ONE_LINE -
  -1 .5

@ Names, and what ends a macro.
@d NAME
10
@d NAME_AND_PARENTHESIS
(f)
@d NAME@&_BY_JOIN
(f)
@d NAME@&_@&2
x
@d NAME@&@'A'
"s"
@d NAME@&@=_v@>
y
@d EMPTY \
@d AFTER_EMPTY x \

@d AFTER_BLANK_LINE y
\
  \
@c
int x;
