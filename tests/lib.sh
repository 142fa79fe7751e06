# What the shell tests share: running a case, and counting.
#
# A case is a folder: in/ (the folder in which the program runs), arguments (one a line), expected/
# (the files that the run creates, and no other), stderr, status. A missing in/ or expected/ is an
# empty one.

passed=0
failed=0

pass() {
    passed=$((passed + 1))
}

fail() { # NAME MESSAGE
    failed=$((failed + 1))
    echo "FAIL $1: $2"
}

skip() { # NAME REASON
    echo "skipped: $1 ($2)"
}

# Starts a case that a test makes, in $case: it needs status 0, no file and nothing on standard error.
begin_case() { # ARGUMENT..
    case=$temporary/case
    rm -rf "$case"
    mkdir "$case" "$case/in" "$case/expected"
    for argument; do
        printf '%s\n' "$argument"
    done >"$case/arguments"
    : >"$case/stderr"
    echo 0 >"$case/status"
}

# Says how the run of $case has to end: the status, and the lines on standard error.
must_end() { # STATUS LINE..
    echo "$1" >"$case/status"
    shift
    for line; do
        printf '%s\n' "$line"
    done >"$case/stderr"
}

plainly() {
    "$@"
}

# Runs the program on $1 by the runner $2, a function that is passed the program and its arguments.
# Leaves the folder in $temporary/run, what it has to have in $temporary/expected, the streams and
# $status.
run_program() { # CASE RUNNER
    rm -rf "$temporary/run" "$temporary/expected" "$temporary/difference"
    mkdir "$temporary/run" "$temporary/expected"
    : >"$temporary/difference"
    chmod 777 "$temporary/run"
    if [ -d "$1/in" ]; then
        cp -R "$1/in/." "$temporary/run"
        cp -R "$1/in/." "$temporary/expected"
    fi
    [ ! -d "$1/expected" ] || cp -R "$1/expected/." "$temporary/expected"
    _case=$1 _runner=$2
    set --
    while IFS= read -r argument; do
        set -- "$@" "$argument"
    done <"$_case/arguments"
    status=0
    (cd "$temporary/run" && "$_runner" "$temporary/ctangle" "$@") \
        >"$temporary/stdout" 2>"$temporary/stderr" || status=$?
}

# Whether the last run ended as $1 says: its status, its streams, and the files that are there.
ended_so() { # CASE
    problem=
    [ "$status" = "$(cat "$1/status")" ] || problem="status $status, not $(cat "$1/status")"
    [ ! -s "$temporary/stdout" ] || problem="something on standard output"
    cmp -s "$temporary/stderr" "$1/stderr" || problem="${problem:+$problem; }another standard error"
    diff -r "$temporary/expected" "$temporary/run" >"$temporary/difference" 2>&1 \
        || problem="${problem:+$problem; }other files"
    [ -z "$problem" ]
}

# Reports that the last run did not end as its case says.
report() { # NAME
    fail "$1" "$problem"
    sed 's/^/    /' "$temporary/difference" | head -n 20
    sed 's/^/    standard error: /' "$temporary/stderr" | head -n 10
    sed 's/^/    expected there: /' "$_case/stderr" | head -n 10
}

run_case() { # NAME CASE [RUNNER]
    run_program "$2" "${3:-plainly}"
    if ended_so "$2"; then pass; else report "$1"; fi
}

# Whether a program is there, at its path in $ctangle, $retangle or $layers; else the test of this name fails.
find_ctangle() { # NAME
    ctangle=${CTANGLE:-$top/bin/ctangle}
    is_built "$1" "$ctangle" make
}

find_retangle() { # NAME
    retangle=${RETANGLE:-$top/bin/retangle}
    is_built "$1" "$retangle" make
}

find_layers() { # NAME
    layers=${LAYERS:-$top/bin/tangle_layers}
    is_built "$1" "$layers" 'make layers'
}

is_built() { # NAME PROGRAM COMMAND
    [ -x "$2" ] && return
    fail "$1" "$2 is not there: run $3 first"
    return 1
}

# Compiles tests/LIBRARY.c to be loaded before the C library; else the test of this name fails.
compile_library() { # NAME LIBRARY
    cc -O2 -shared -fPIC -o "$temporary/$2.so" "$top/tests/$2.c" && return
    fail "$1" "tests/$2.c does not compile"
    return 1
}

# Runs a test in Python with these arguments, and takes over its counts.
run_python() { # NAME FILE ARGUMENT..
    _name=$1 _file=$2
    shift 2
    python3 -B "$top/tests/$_file" "$@" >"$temporary/log" 2>&1
    count_last_line "$_name" "$temporary/log"
}

# Takes over the counts of a log whose last line has them, and shows the rest of it.
count_last_line() { # NAME LOG
    counts=$(tail -n 1 "$2")
    case $counts in
    *' passed, '*' failed') ;;
    *) fail "$1" "$(tail -n 3 "$2")"; return ;;
    esac
    sed '$d' "$2"
    passed=$((passed + ${counts%% *}))
    counts=${counts#*, }
    failed=$((failed + ${counts%% *}))
}
