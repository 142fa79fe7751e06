@ A.
@c
@<b...@>@<a@>@<bc@>
@<Put it ...@>
@<Put its@>
