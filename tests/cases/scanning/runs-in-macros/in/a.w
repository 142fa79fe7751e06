@ A.
@d one(x) x+1
@d two x  y "s"'c'@'a'z
@d three@&four  (5)
@d five a b
c+
d
1 "e"
f; g\
h
@d six(x) \
i+j \
@d seven@&a b
(k)
@d eight"l"+m
@d nine-n
@d ten "o@@p" q"r" t
@c
z
