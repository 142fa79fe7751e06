@ A range of characters, and what else is beside a constant.
@c
switch (c) { case @'a'...@'z': f(x.@'b', @'c'.5, @'d'@=v@>, @'e'); }
