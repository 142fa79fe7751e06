@ A.
@d N(x) x@'A'
@c
s="a@@b\
c"; t=@=v@>'"'; @h
return @'\n'@&
+@<v@>;
