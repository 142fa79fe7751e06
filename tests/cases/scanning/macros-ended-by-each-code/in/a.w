@ A.
@d ONE 1 @f int
@d TWO 2 @s x
@d THREE@'3' @(f@> text
@D F(a) a+
 b  
@d 5 @h
@d +
@c
@H
y
