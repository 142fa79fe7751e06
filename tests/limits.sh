# Webs at a limit and one past it (tests/limit_cases.py); those whose time or memory counts are made here.

test_limits() {
    test_longest_files
    test_lines_taken
    test_many
    test_long_name
    test_rare_tokens
    test_short_runs
    test_graphs
    test_growing
}

repeated() { # COUNT TEXT
    awk -v count="$1" -v text="$2" 'BEGIN { for (n = 0; n < count; n++) printf "%s", text }'
}

# A file of 67,108,864 bytes, of lines of 65,535 bytes each; its last bytes are these.
longest_file() { # FILE END
    {
        repeated 65535 x
        printf '\n'
    } >"$temporary/line"
    for _number in $(seq 64); do cat "$temporary/line"; done >"$temporary/lines"
    for _number in $(seq 16); do cat "$temporary/lines"; done >"$1"
    truncate -s "-$(printf "$2" | wc -c)" "$1"
    printf "$2" >>"$1"
}

# The web, an included file and the change file at the limit and one byte past it.
test_longest_files() {
    begin_case a
    longest_file "$case/in/a.w" '\n@\n@c\nlast'
    printf '/*1:*/\n#line 1026 "a.w"\n\nlast\n/*:1*/\n' >"$case/expected/a.c"
    run_case 'web of 67,108,864 bytes' "$case"
    printf x >>"$case/in/a.w"
    rm "$case/expected/a.c"
    must_end 3 'ctangle: cannot read a.w'
    run_case 'web of 67,108,865 bytes' "$case"

    begin_case a
    printf '@i b.w\n' >"$case/in/a.w"
    longest_file "$case/in/b.w" '\n@\n@c\nlast'
    printf '/*1:*/\n#line 1026 "b.w"\n\nlast\n/*:1*/\n' >"$case/expected/a.c"
    run_case 'included file of 67,108,864 bytes' "$case"
    printf x >>"$case/in/b.w"
    rm "$case/expected/a.c"
    must_end 3 'ctangle: cannot read b.w'
    run_case 'included file of 67,108,865 bytes' "$case"

    begin_case a a
    printf '@ A.\n@c\nint x;\n' >"$case/in/a.w"
    longest_file "$case/in/a.ch" '\n@x\nint x;\n@y\nlast'
    must_end 1 'a.ch:1025: error: change without @z'
    printf '/*1:*/\n#line 2 "a.w"\n\n#line 1028 "a.ch"\nlast\n/*:1*/\n' >"$case/expected/a.c"
    run_case 'change file of 67,108,864 bytes' "$case"
    printf x >>"$case/in/a.ch"
    rm "$case/expected/a.c"
    must_end 3 'ctangle: cannot read a.ch'
    run_case 'change file of 67,108,865 bytes' "$case"
}

measured() {
    "$temporary/measure" "$temporary/used" "$@"
}

run_timed_case() { # NAME MICROSECONDS
    run_case "$1" "$case" measured
    microseconds=$(cut -d ' ' -f 1 "$temporary/used")
    if [ "$microseconds" -lt "$2" ]; then
        pass
    else
        fail "$1" "$microseconds microseconds of the processor, not under $2"
    fi
}

# The last measured run held less memory than this number of KB.
must_have_held() { # NAME KILOBYTES
    kilobytes=$(cut -d ' ' -f 2 "$temporary/used")
    if [ "$kilobytes" -lt "$2" ]; then
        pass
    else
        fail "$1" "$kilobytes KB of memory, not under $2"
    fi
}

test_lines_taken() {
    begin_case a
    printf '@i b.w\n@i b.w\n@i b.w\n' >"$case/in/a.w"
    repeated 1000000 '
' >"$case/in/b.w"
    must_end 1 'b.w:999999: error: too many lines' 'warning: no program text'
    : >"$case/expected/a.c"
    cc -O2 -o "$temporary/measure" "$top/tests/measure.c"
    run_case 'more than 2,000,000 lines taken' "$case" measured
    must_have_held 'more than 2,000,000 lines taken' 250000
}

test_long_name() {
    begin_case a
    name=$(repeated 60000 n)
    printf '@ A.\n@c\n@<%s@>\n@ @<%s...@>=\n1\n' "$name" "${name#n}" >"$case/in/a.w"
    {
        printf '/*1:*/\n#line 2 "a.w"\n\n /*2:*/\n#line 4 "a.w"\n\n1\n/*:2*/'
        printf '\n#line 3 "a.w"\n\n/*:1*/\n'
    } >"$case/expected/a.c"
    run_case 'name of 60,000 bytes' "$case"
}

many_sections() { # COUNT
    awk -v count="$1" 'BEGIN { printf "limbo\n"; for (n = 1; n <= count; n++) printf "@ @c\nx\n" }' >"$case/in/a.w"
    awk -v count="$1" 'BEGIN {
        for (n = 1; n <= count; n++) printf "/*%d:*/\n#line %d \"a.w\"\n\nx\n/*:%d*/", n, 2 * n, n
        printf "\n"
    }' >"$case/expected/a.c"
}

# More than 16 bits can count: sections, and names that are used before their definitions.
test_many() {
    begin_case a
    many_sections 70000
    run_case '70,000 sections' "$case"

    begin_case a
    awk 'BEGIN {
        printf "@ P.\n@c\n"
        for (n = 1; n <= 5000; n++) printf "@<n%04d@>\n", n
        for (n = 1; n <= 5000; n++) printf "@ @<n%04d@>=\n%d\n", n, n
    }' >"$case/in/a.w"
    awk 'BEGIN {
        printf "/*1:*/\n#line 2 \"a.w\"\n\n"
        for (n = 1; n <= 5000; n++) {
            printf " /*%d:*/\n#line %d \"a.w\"\n\n%d\n/*:%d*/", n + 1, 5001 + 2 * n, n, n + 1
            printf "\n#line %d \"a.w\"\n\n", n + 2
        }
        printf "/*:1*/\n"
    }' >"$case/expected/a.c"
    run_case '5,000 names' "$case"

    begin_case a
    {
        printf '@ P.\n@c\n'
        repeated 300 "$(repeated 65000 x)
"
    } >"$case/in/a.w"
    must_end 1 'error: too large: the unnamed program'
    run_case '19,500,000 bytes of C in one part' "$case"
}

# Between these two words is nothing but what joins remove.
expect_joined_words() {
    printf '/*1:*/\n#line 2 "a.w"\n\nxy\n/*:1*/\n' >"$case/expected/a.c"
}

# A directive with line ends inside comments, and z on this line.
expect_directive() { # DIRECTIVE LINE
    printf '/*1:*/\n#line 2 "a.w"\n\n%s\n#line %d "a.w"\nz\n/*:1*/\n' "$1" "$2" >"$case/expected/a.c"
}

# Parts with so many joins, ASCII constants and line ends that a look at all others from each takes too long.
test_rare_tokens() {
    begin_case a
    {
        printf '@ P.\n@c\nx\n'
        repeated 40 "$(repeated 25000 '@&')
"
        printf 'y\n'
    } >"$case/in/a.w"
    expect_joined_words
    run_timed_case 'part of 1,000,000 joins' 1000000

    begin_case a
    {
        printf '@ P.\n@c\n'
        repeated 100 "$(repeated 10000 "@'a'")
"
    } >"$case/in/a.w"
    {
        printf '/*1:*/\n#line 2 "a.w"\n\n'
        repeated 100 "$(repeated 9999 '97 ')97
"
        printf '/*:1*/\n'
    } >"$case/expected/a.c"
    run_timed_case 'part of 1,000,000 ASCII constants that touch' 1000000

    begin_case a
    {
        printf '@ P.\n@c\nx@&'
        repeated 60000 '
'
        printf 'y\n'
    } >"$case/in/a.w"
    expect_joined_words
    run_timed_case 'join before 60,000 line ends' 1000000

    begin_case a
    {
        printf '@ P.\n@c\nx'
        repeated 300000 '@&
'
        printf 'y\n'
    } >"$case/in/a.w"
    expect_joined_words
    run_timed_case 'joins and line ends in turn' 1000000

    begin_case a
    {
        printf '@ P.\n@c\n#define M x'
        repeated 300000 '/*
*/'
        printf 'y\nz\n'
    } >"$case/in/a.w"
    expect_directive '#define M x y' 300004
    run_timed_case 'directive with 300,000 comments over a line end' 1000000

    begin_case a
    {
        printf '@ P.\n@c\n#if x\n'
        repeated 300000 '/*
*/'
        printf '@&y\nz\n'
    } >"$case/in/a.w"
    expect_directive '#if xy' 300005
    run_timed_case 'directive with 300,000 comments and a join after them' 1000000
}

# A part of 100 lines with 10,000 words each, with TEXT after each word, and of one word more. WRITTEN
# is what becomes of a line of these words.
words_with() { # TEXT WRITTEN
    begin_case a
    {
        printf '@ P.\n@c\n'
        repeated 100 "$(repeated 10000 "ab$1")
"
        printf 'y\n'
    } >"$case/in/a.w"
    {
        printf '/*1:*/\n#line 2 "a.w"\n\n'
        repeated 100 "$2"
        printf 'y\n/*:1*/\n'
    } >"$case/expected/a.c"
}

# Each word is a run of its own, or all those of a line are one.
test_short_runs() {
    words_with '@&' "$(repeated 10000 ab)"
    run_timed_case '1,000,000 words with joins' 1000000
    must_have_held '1,000,000 words with joins' 66000

    row=$(repeated 9999 'ab ')
    words_with '\t' "${row}ab
"
    run_timed_case '1,000,000 words with tabs' 1000000
    must_have_held '1,000,000 words with tabs' 70000

    words_with ' ' "${row}ab
"
    run_timed_case '1,000,000 words with single spaces' 1000000
    must_have_held '1,000,000 words with single spaces' 20000
}

# Webs whose names use each other in ways that would take quadratic time, or overflow the stack of a recursive program.
test_graphs() {
    python3 -B "$top/tests/hostile.py" >"$temporary/graphs"
    while IFS= read -r graph; do
        begin_case a
        python3 -B "$top/tests/hostile.py" "$graph" "$case"
        run_timed_case "$graph" 5000000
    done <"$temporary/graphs"
}

# A web of 40,000 names beside one of 10,000: memory and instructions.
test_growing() {
    if find_retangle '40,000 names' && compile_library '40,000 names' refuse; then
        run_python '40,000 names' growing.py "$temporary/ctangle" "$retangle" "$temporary/measure" \
            "$temporary/refuse.so" "$top"
    fi
}
