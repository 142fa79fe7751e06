@ A.
@c
@I "b c.w" rest
