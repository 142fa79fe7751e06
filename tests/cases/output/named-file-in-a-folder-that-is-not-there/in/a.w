@ P.
@c
x
@ Q.
@(d/h.h@>=
1
@ R.
@(i.h@>=
2
