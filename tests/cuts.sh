# Webs of stored cases, cut after every byte, in a folder and by the edits of a session, against the reference tangler
# (tests/compare.py).

test_cuts() {
    set -- "$top"/tests/cases/scanning/*/in/a.w "$top"/tests/cases/names/*/in/a.w \
        "$top/tests/cases/output/names-that-contain-each-other-have-no-output/in/a.w" \
        "$top/tests/cases/output/name-over-two-sections-and-a-named-file/in/a.w"
    run_python 'cut webs' compare.py cut "$temporary/ctangle" "$@"
    ! find_retangle cuts || run_python 'webs edited into their cuts' compare.py edited "$retangle" "$@"
}
