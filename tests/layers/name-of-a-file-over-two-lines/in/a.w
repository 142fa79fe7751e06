@ A.
@c
x
@*B.
@(a
	b@@c.h@> +==
y
