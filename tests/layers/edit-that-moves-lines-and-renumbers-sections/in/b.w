% top
@ Z.
@ A.
@c
int x=@<v@>;
@ @<v@>=
1
