@include b.w
@i "b	w"
@i "b.w "
@ A.
@c
@i "b.w
@i b.w"rest
@i	b.w	rest
y;
