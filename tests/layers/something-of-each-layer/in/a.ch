@x
old;
@y
new;
@x
no
@y
