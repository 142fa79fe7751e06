@ A.
@c
@<a   long
	name@>;
@ @<a long name@>+=
1
