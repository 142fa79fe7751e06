#!/bin/sh
# The gate, which proves every crate from nothing and builds the programs, and then the tests over those.
# The last line is 'N passed, M failed' over both; the file bin/check.count keeps it.
set -u
cd "$(dirname "$0")/.." || exit 1
mkdir -p bin
passed=0
failed=0

# Adds the counts of the last line of a log; a log that does not end with counts is a failure.
count() { # LOG
    last=$(tail -n 1 "$1")
    case $last in
    *[0-9]' passed, '*[0-9]' failed') ;;
    *)
        echo "FAIL $1: it ends without a count" >>"$1"
        last='0 passed, 1 failed'
        ;;
    esac
    passed=$((passed + ${last%% *}))
    last=${last#*, }
    failed=$((failed + ${last%% *}))
}

rt ci 2>&1 | tee bin/gate.log
count bin/gate.log

cp crates/ctangle/out/ctangle crates/retangle/out/retangle \
    crates/tangle_layers/out/tangle_layers bin/
tests/run.sh 2>&1 | tee bin/tests.log
count bin/tests.log

# what failed, once more, since it may be far above
grep -hE '^FAIL |NOT PROVED|NOT REFUSED|NOT TRIED|BAD EDIT|FAILED' bin/gate.log bin/tests.log
echo "$passed passed, $failed failed" | tee bin/check.count
[ "$failed" -eq 0 ]
