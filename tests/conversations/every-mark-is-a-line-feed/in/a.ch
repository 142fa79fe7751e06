@x
old;
@y
new;
@z
