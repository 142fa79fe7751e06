@ A.
@d Q(x) "s"
+
"s"
(
"s"
x
@d C(x) @'a'
+
@'a'
(
@'a'
x
@d V(x) @=v@>
+
@=v@>
(
@=v@>
x
@d D(x) 1
+
1
(
1
x
@d W(x) w
+
w
(
w
x
@d N@&@'A'
(x)
@d N@&@=v@>
(x)
@d N@&1@&@'A'@&@=v@>
(x)
@d N@&"s"
(x)
@c
y
