@ A macro over lines whose author ends them by backslashes, too.
@d F(x) a \
  b\
c \ 	
x d
@c
F(N)
