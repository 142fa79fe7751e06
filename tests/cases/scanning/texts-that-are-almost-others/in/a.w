@ A.
@d
N 1
@c
@^a@@b@>x/* a@@ b */y "\@@" z
a @=@> b
R "x"
#@&include <a//b>
c @'@' d
@=@>#endif
e@&
#define f /* g
h */ i
#define j \	
k /* l
m */ n
o
