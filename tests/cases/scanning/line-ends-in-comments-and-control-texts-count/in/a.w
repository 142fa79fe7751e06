@ A.
@c
a /* x
y */ b
@^in
dex@> c
#include /*
*/ <p@@q>
