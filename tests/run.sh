#!/bin/sh
# Runs the built ctangle on small folders and the built retangle on scripts, and shows what the gate
# does not see: the files that a run creates, standard error, the status, and what a run leaves where
# the machine refuses something.
#
# usage: tests/run.sh [PART..]
#
# tests/README.md says what each part asks and needs; without one all are run. Several run side by side,
# as many at a time as there are processors; what each says is shown when all have ended.
#
# CTANGLE=PATH, RETANGLE=PATH and LAYERS=PATH take other programs.
# The last line is 'N passed, M failed'.
set -u
LC_ALL=C
export LC_ALL

top=$(cd "$(dirname "$0")/.." && pwd)
temporary=$(mktemp -d)
trap 'rm -rf "$temporary"' EXIT
chmod 755 "$temporary"

. "$top/tests/lib.sh"

# The longest parts come first.
[ $# -gt 0 ] || set -- scripts comparison definitions layers limits sizes cuts memory \
    conversations compiler streams cases machine lsp editor users example documents
if [ $# -gt 1 ]; then
    printf '%s\n' "$@" | xargs -P "$(nproc)" -I PART sh -c '"$0" "$1" >"$2/$1" 2>&1' "$0" PART "$temporary"
    for part; do
        count_last_line "$part" "$temporary/$part"
    done
    echo "$passed passed, $failed failed"
    [ "$failed" -eq 0 ]
    exit
fi

for file in parts example cases machine limits memory cuts; do
    . "$top/tests/$file.sh"
done

is_known=
! run_part_in_python "$1" || is_known=yes
if type "test_$1" >/dev/null 2>&1; then
    is_known=yes
    if find_ctangle "$1"; then
        # a copy that another user can run, too
        cp "$ctangle" "$temporary/ctangle"
        chmod 755 "$temporary/ctangle"
        "test_$1"
    fi
fi
[ "$is_known" ] || fail "$1" 'there is no such part'

echo "$passed passed, $failed failed"
[ "$failed" -eq 0 ]
