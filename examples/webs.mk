# The prerequisites of what is made from a web, for GNU make.
#
# $(call files_of,primes.w primes.ch) is these files, and each file that they include, at any depth.
# It is computed from the files at each make, so no list has to be kept:
#
#     include /usr/local/share/ctangle/webs.mk
#     .DELETE_ON_ERROR:
#     primes.c: $(call files_of,primes.w primes.ch)
#     	ctangle primes primes
#
# `make install` puts this file there, or below another PREFIX.
#
# Names of included files count from the folder where make runs, as for ctangle, also in a file that
# is in another folder. So webs of the folder src that include each other by their bare names are
# made by `make -C src`.
#
# The web comes first and then the change file, if there is one. An included file may itself be
# made by a rule. One that is not there and has no rule stops make, which names it. A change file
# can take an inclusion away, and then that file may be missing: give it a rule without a recipe,
# `missing.w:`. The C is then made at each make.
#
# A name is made of letters, digits, `.`, `_`, `/`, `+` and `-`, and does not begin with `-`. One of
# another form is no prerequisite, and make warns of it with `?` for each other character: the text
# of a web never becomes a command, or a word of the Makefile. Only regular files are read.

files_of = $(call files_of_names,$(shell printf '%s\n' \
    $(foreach name,$1,'$(subst ','\'',$(name))') | LC_ALL=C sed '$(other_characters)'))

files_of_names = $(foreach file,$(filter-out $2,$1), \
    $(if $(findstring ?,$(file))$(filter -%,$(file)), \
    $(warning $(file) is no prerequisite, by its name (webs.mk)), \
    $(file) $(call files_of_names,$(call included_in,$(file)),$2 $(file))))

# A file of which the system says that it is empty is not read: some in /proc would be waited for.
included_in = $(shell [ -f $1 ] && [ -s $1 ] && LC_ALL=C sed -n '/^@[iI]/{$(inclusion)}' $1)

# What is after the code, without a name's quotes and without what follows it.
inclusion = s/^..[[:space:]]*//; /^"/!s/[[:space:]"].*//; s/^"\([^"]*\).*/\1/; \
    $(other_characters); p;
other_characters = s|[^A-Za-z0-9._/+-]|?|g
