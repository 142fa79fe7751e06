@	A.
@B.
@C.
@D.
@
@c
x
