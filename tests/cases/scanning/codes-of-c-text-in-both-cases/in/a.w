@d @c @< @@ passed over in limbo
@ A @f @s @& passed over.
@P
a@s b@S c@f d@F e@d f@C g@p h
i@.x@>j@:y@>k@tz@>l@Qq@>m@^w@>n
o@!p@/q@,r@&s
t @@ u # include <v//w>
#includes <a//b>
x
