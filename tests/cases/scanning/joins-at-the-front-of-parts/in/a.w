@ A.
@c
a;
@ B.
@c @& b;
@ C.
@c
@&
c@'d'e "f"@'g'"h"
