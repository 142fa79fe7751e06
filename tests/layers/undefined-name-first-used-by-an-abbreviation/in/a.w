@ A @<undone@>.
@c
@<und...@>
@<undone@>
