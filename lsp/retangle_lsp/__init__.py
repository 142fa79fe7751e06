"""A language server for webs, over retangle, with Python's standard library alone.

protocol    messages, and the parts of their parameters
documents   texts and positions as clients count them
files       texts as retangle takes them: those on the disk, and those that are open
edits       the edits that turn lines into other lines
gathering   many answers of a run at once
signals     the signals that end this program
pipes       a program that is asked over pipes, with a limit of time
runs        one run of retangle
standin     a folder that stands in for that of a web while retangle starts
session     a web that is tangled again and again
origins     which line of a web a line of C was written from
folders     the folder of a project, as the client's settings say it
roots       which webs there are, and which files are theirs
source      the source lines of a web, out of its files
scanning    where names and flaws are in a text
names       the sections and the names of a web
kinds       what a fault of retangle is about
marks       where a fault is marked
faults      faults as few groups: which of them is which one's consequence
unended     what follows from a text that does not end
webs        a web of which a file is open: retangle over it, its names, and its faults
progress    what is shown while something takes long
workspace   the open files and their webs, and what is published for them
changefiles which web a change file is of, and which lines its changes take
merging     the diagnostics of several webs, each fault once
requests    what is asked of a web, but for changes
renaming    a section gets another name, also in change files
fullnames   an abbreviation that no full name belongs to gets one
changes     the actions at a fault
tokens      names, codes, TeX, C and macros in a text, for colours
texts       what an editor shows in a text or selects in it
settings    what the client's settings say
compiler    a compiler over the C of webs that were saved
remarks     what a compiler says, at the places of the web
server      what is done for each message
main        the program: its arguments, and which retangle it starts
"""
