"""Places that random text seldom makes: inclusions at the greatest depth, names of inclusions and sections that end in
rare ways, a file that clashes with the main file and was mentioned before, the last byte, joins at the front of parts,
and constants and quoted texts in rows, in macros too."""

SECTIONS = [
    [b'@ A @<a.c@> and @<h.h@>.', b'@ @(a.c@>=', b'clash', b'@ @(h.h@>=', b'x'],
    [b'@ @c', b'@<In', b'it@> = x', b'@<A', b'B@>=@<B@>+', b'='],
    [b'@ @c', b'x\xff y\xff\xfe1 \xff', b"@'\xff' z"],
    [b'@ @<...@>=', b'x', b'@ @<....@>=', b'@<....@>'],
    [b'@ @c', b'@i "d\\c.w "', b'@i d\\c.w"more', b'@i "d\\c.w', b'@i\td\\c.w\tmore', b'@include', b'@I "d\\c\t.w"'],
    [b'@ @c', b'@i deep.w', b'x'],
    [b'@ @c @& x', b'@ @c', b'@&', b'@& y@\'a\'"s"@\'b\'\'c\'', b'@ @<A@>=@&', b'@& "q"@<B@>\'c\'@=v@>"r"@&\'d\''],
    [b'@ @d M a b@&c @\'a\'@\'b\'@\'c\' d\\', b'e f \\\\', b'@d N x y@& z', b'@& w\'c\'"s"v', b'@c @h'],
]
FILES = [(b'd\\c.w', [b'w', b'"s\\', b't" @<A@> u']), (b'deep.w', [b'@i deep.w', b'deep']), (b'z.w', [b'int z;'])]

# The first takes lines of two depths. A stray mark, and old lines beyond the last line of the web.
CHANGES = [
    [b'@x', b'deep', b'deep', b'@y', b'@i z.w', b'int n;', b'@z'],
    [b'@x', b'deep', b'@y', b'@z', b'@x', b'deep', b'deep', b'@y', b'@i z.w', b'@i no.w', b'@z'],
    [b'@y', b'between', b'@x', b' \t', b'deep', b'', b'deep', b'@y', b'@y', b'@z'],
    [b'@x', b'deep', b'deep', b'@y', b'deep', b'@z', b'@x', b'deep', b'@y', b'@z', b'@x', b'never', b'@y', b'@z'],
]


def add_places(chance, project):
    """Adds sections with such places to the web of a project, and to its change file, which it may not have yet."""
    web = project.files[0][1]
    for lines in chance.sample(SECTIONS, chance.randint(2, len(SECTIONS))):
        web += lines
    project.files += FILES
    if project.change is None:
        project.change = b'a.ch'
        project.files.append((project.change, []))
    dict(project.files)[project.change][:0] = chance.choice(CHANGES)
    if chance.random() < .3:
        web += [b'@ @c', b'last']
        dict(project.files)[project.change].extend([b'@x', b'last', b'more', b'@y', b'end', b'@z'])
