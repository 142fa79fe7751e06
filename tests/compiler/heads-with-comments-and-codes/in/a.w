@ @c @<Count@>
@ @<Count@>@^counting@>= n++;
@ @<Count@> /* once more */ + @; = m++;
