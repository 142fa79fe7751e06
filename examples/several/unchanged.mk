# The same web, but a file that comes out as it was stays as it is, and nothing is compiled again
# for it.
#
# The web is tangled in the folder `new`, where it finds its sources under their names. A web with
# an error changes no file outside of it. A web that includes files has the sources
# $(call files_of,calc.w), by ../webs.mk.

CTANGLE = ctangle

sources = calc.w
outputs = calc.c stack.c stack.h
missing = $(filter-out $(wildcard $(outputs)),$(outputs))

calc: calc.o stack.o
	$(CC) -o $@ calc.o stack.o

calc.o: calc.c stack.h
stack.o: stack.c stack.h

# The recipe is empty: make then looks at the time of each file, which is the old one if the file
# stayed as it is.
$(outputs): tangled ;

tangled: $(sources) $(if $(missing),again)
	rm -rf new
	mkdir new
	cp $(sources) new
	cd new && $(CTANGLE) calc.w
	for file in $(outputs); do \
	    cmp -s new/$$file $$file || mv new/$$file $$file || exit 1; \
	done
	rm -rf new
	touch $@

again:

.PHONY: again
