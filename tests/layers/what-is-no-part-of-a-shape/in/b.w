% The same shapes, by other marks and names and on other lines.
@ A.
@c
@<value@>@(w@>
@ @(val...@>=
x y
@ @<w@>=
1
@ No part.
@ @<va...@>+=
z // c
