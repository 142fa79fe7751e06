# Each allocation of a run and of a conversation refused, one at a time, by a library that is loaded
# before the C library's malloc; and how many allocations there are, which shows what is expanded.

test_memory() {
    compile_library 'refused allocations' refuse || return
    one_web=$top/tests/cases/reading/one-web-makes-one-c-file
    for name in reading/one-web-makes-one-c-file reading/change-past-the-end-of-an-included-file \
        reading/change-and-inclusions-of-which-one-is-missing \
        programs/longer-output-is-replaced programs/flags-and-names-without-extensions \
        programs/four-names-are-too-many output/name-over-two-sections-and-a-named-file \
        output/names-that-contain-each-other-have-no-output; do
        refuse_each_allocation refusing "${name#*/}" "$top/tests/cases/$name"
    done
    refuse_each_allocation refusing_from 'one web, without memory from an allocation on' "$one_web"
}

refusing() {
    REFUSE_AT=$at REFUSE_REPORT="$temporary/refused" LD_PRELOAD="$temporary/refuse.so" "$@"
}

# Each allocation after that one is refused too.
refusing_from() {
    REFUSE_ALL=1 refusing "$@"
}

# Refuses the first allocation of a run, the second and so on, until no allocation of a run is refused.
refuse_each_allocation() { # RUNNER NAME CASE
    refuser=$1
    shift
    at=0
    refused=0
    while :; do
        at=$((at + 1))
        rm -f "$temporary/refused"
        run_program "$2" "$refuser"
        [ -e "$temporary/refused" ] || break
        [ "$status" != 3 ] || refused=$((refused + 1))
        if survived "$2"; then pass; else report "$1, allocation $at refused"; fi
        if [ "$at" -ge 10000 ]; then
            fail "$1" 'the allocations of a run do not end'
            return
        fi
    done
    if ended_so "$2"; then pass; else report "$1, no allocation refused"; fi
    if [ "$refused" -gt 0 ]; then pass; else fail "$1" 'no refused allocation ended a run'; fi
}

# Whether a run with a refused allocation ended with status 3, at most the line that says so, alone or
# after those of the faults, and at most prefixes of its files, or needed no such memory and ended as
# without a refusal.
survived() { # CASE
    if [ "$status" != 3 ]; then
        ended_so "$1"
        return
    fi
    problem=
    echo 'ctangle: NoMemory' >"$temporary/no_memory"
    [ ! -s "$temporary/stdout" ] || problem="something on standard output"
    cat "$1/stderr" "$temporary/no_memory" >"$temporary/faults_first"
    [ ! -s "$temporary/stderr" ] || cmp -s "$temporary/stderr" "$temporary/no_memory" \
        || cmp -s "$temporary/stderr" "$temporary/faults_first" || problem="another standard error"
    for file in "$temporary/run"/*; do
        survived_as "$file" "$1/in/${file##*/}" "$temporary/expected/${file##*/}" \
            || problem="${file##*/} is no prefix of its output"
    done
    [ -z "$problem" ]
}

# Whether a file is as it was before the run, if it was there, or else the front of its output. An
# older output is whole after a run that reports that it is out of memory: such an allocation failed
# before the file was changed.
survived_as() { # FILE OLD EXPECTED
    if [ -f "$2" ] && [ -s "$temporary/stderr" ]; then
        cmp -s "$1" "$2"
    else
        is_prefix "$1" "$3" || { [ -f "$2" ] && cmp -s "$1" "$2"; }
    fi
}
