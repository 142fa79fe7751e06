# Runs in which the machine refuses something: a stream, a permission, space on the disk.

one_piece="$top/tests/cases/reading/one-web-makes-one-c-file"
two_outputs="$top/tests/cases/output/name-over-two-sections-and-a-named-file"
with_a_fault="$top/tests/cases/reading/old-lines-of-a-change-do-not-match"

test_machine() {
    test_standard_error
    test_permissions
    test_second_output
    test_overwritten
    test_waited_for
    test_full_disk
}

to_a_full_disk() {
    "$@" 2>/dev/full
}

to_nothing() {
    "$@" 2>&-
}

# A fault that cannot be reported ends the run before any file is made. Where nothing is to be
# reported, it does not matter that standard error would fail.
test_standard_error() {
    for runner in to_a_full_disk to_nothing; do
        begin_case a a
        cp "$with_a_fault"/in/* "$case/in"
        must_end 3
        run_case "faults cannot be reported: $runner" "$case" $runner

        begin_case a b c d
        must_end 3
        run_case "usage cannot be reported: $runner" "$case" $runner

        run_case "nothing to report: $runner" "$one_piece" $runner
    done
}

as_nobody() {
    if [ "$(id -u)" = 0 ]; then
        setpriv --reuid=65534 --regid=65534 --clear-groups "$@"
    else
        "$@"
    fi
}

# Takes the permissions of the file or folder $locked away for the time of the run.
locked_away() {
    chmod 0 "$locked"
    as_nobody "$@"
    _status=$?
    chmod 755 "$locked"
    return $_status
}

test_permissions() {
    if ! as_nobody true 2>/dev/null; then
        skip permissions 'root, and setpriv does not work here'
        return
    fi
    begin_case a
    printf '@ A.\n@c\n@i b.w\n' >"$case/in/a.w"
    echo 'int x;' >"$case/in/b.w"
    must_end 3 'ctangle: cannot read b.w'
    locked=b.w
    run_case 'inclusion without permission' "$case" locked_away

    begin_case a - d/out
    cp "$one_piece/in/a.w" "$case/in"
    mkdir "$case/in/d"
    must_end 3 'ctangle: cannot write d/out.c'
    locked=d
    run_case 'output folder without permission' "$case" locked_away
}

# A folder is where the named file is to be written, after the main file. Of three files the last is not tried.
test_second_output() {
    begin_case a
    cp -R "$two_outputs/in/." "$case/in"
    cp "$two_outputs/expected/a.c" "$case/expected"
    mkdir "$case/in/h.h"
    must_end 3 'ctangle: cannot write h.h'
    run_case 'second output is a folder' "$case"

    printf '@ @(k.h@>=\nint k;\n' >>"$case/in/a.w"
    run_case 'second output of three is a folder' "$case"

    # the faults are reported first
    printf '@ @<C@>=\n' >>"$case/in/a.w"
    must_end 3 'a.w:12: warning: never used: <C>' 'ctangle: cannot write h.h'
    run_case 'second output is a folder, and there is a fault' "$case"
}

# A web that is an output's name, a Makefile, and a link, which is followed.
test_overwritten() {
    begin_case a
    printf '@ A.\n@(a.w@>=\n1\n@ @(Makefile@>=\n2\n@ @(link@>=\n3\n' >"$case/in/a.w"
    echo 'all:' >"$case/in/Makefile"
    echo 'int x;' >"$case/in/led-to"
    ln -s led-to "$case/in/link"
    must_end 0 'warning: no program text'
    output='/*%d:*/\n#line %d "a.w"\n\n%d\n/*:%d*/\n'
    run_program "$case" plainly
    for one in 1:2:a.w 2:4:Makefile 3:6:led-to; do
        number=${one%%:*} rest=${one#*:}
        printf "$output" "$number" "${rest%%:*}" "$number" "$number" >"$temporary/expected/${rest#*:}"
    done
    : >"$temporary/expected/a.c"
    if ended_so "$case" && [ -h "$temporary/run/link" ]; then pass; else report 'overwritten'; fi
}

# Another program writes into a FIFO that is included, after a second.
while_a_fifo_is_written() {
    mkfifo fifo
    (sleep 1; echo 'int x;' >fifo) &
    "$@"
    _status=$?
    wait
    rm fifo
    return $_status
}

test_waited_for() {
    begin_case a
    printf '@ A.\n@c\n@i fifo\n' >"$case/in/a.w"
    printf '/*1:*/\n#line 2 "a.w"\n\n#line 1 "fifo"\nint x;\n/*:1*/\n' >"$case/expected/a.c"
    run_case 'a FIFO as an included file' "$case" while_a_fifo_is_written
}

# The output is a link to a device that is always full, so no byte can be written.
onto_a_full_disk() {
    ln -s /dev/full a.c
    "$@"
    _status=$?
    rm a.c
    return $_status
}

# A file may have one block, so a write fails in the middle of the file.
onto_one_block() {
    (
        trap '' XFSZ
        ulimit -f 1
        "$@"
    )
}

test_full_disk() {
    begin_case a
    cp "$one_piece/in/a.w" "$case/in"
    must_end 3 'ctangle: cannot write a.c'
    run_case 'output on a full disk' "$case" onto_a_full_disk

    begin_case a
    {
        printf '@ A.\n@c\n'
        awk 'BEGIN { for (n = 0; n < 2000; n++) print "int x" n ";" }'
    } >"$case/in/a.w"
    must_end 3 'ctangle: cannot write a.c'
    run_program "$case" onto_one_block
    sed -n '3,$p' "$case/in/a.w" >"$temporary/lines"
    {
        printf '/*1:*/\n#line 2 "a.w"\n\n'
        cat "$temporary/lines"
        printf '/*:1*/\n'
    } >"$temporary/whole"
    cp "$temporary/run/a.c" "$temporary/expected" 2>/dev/null
    if ! ended_so "$case"; then
        report 'disk fills while writing'
    elif ! is_prefix "$temporary/run/a.c" "$temporary/whole"; then
        fail 'disk fills while writing' 'a.c is no prefix of the output'
    else
        pass
    fi
}

# Whether the file $1 is there and has the first bytes of the file $2.
is_prefix() { # FILE WHOLE
    [ -f "$1" ] && head -c "$(wc -c <"$1")" "$2" | cmp -s - "$1"
}
