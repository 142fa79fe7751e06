# The parts that only start tests in Python, one test a line: the part, the file and what it is passed. CTANGLE, RETANGLE
# and LAYERS stand for the programs, FAIL and REFUSE for libraries (tests/fail.c, tests/refuse.c), TOP for the folder of
# the repository.

parts_in_python() {
    cat <<'END'
documents documents.py TOP
definitions wrong_definitions.py TOP
users users.py CTANGLE RETANGLE TOP
users webs_mk.py TOP
editor editor_client.py CTANGLE RETANGLE TOP
lsp lsp.py CTANGLE RETANGLE TOP
lsp lsp_safety.py CTANGLE RETANGLE TOP
lsp lsp_fuzz.py CTANGLE RETANGLE TOP
lsp lsp_days.py CTANGLE RETANGLE TOP
lsp lsp_names.py CTANGLE RETANGLE LAYERS TOP
lsp lsp_compiler.py CTANGLE RETANGLE TOP
lsp lsp_changes.py CTANGLE RETANGLE TOP
lsp lsp_texts.py CTANGLE RETANGLE TOP
lsp lsp_editors.py CTANGLE RETANGLE TOP
conversations conversations.py RETANGLE TOP
streams streams.py CTANGLE RETANGLE FAIL TOP
compiler compiler.py CTANGLE TOP
compiler c_tokens.py TOP
compiler read_outputs.py CTANGLE TOP
sizes sizes.py CTANGLE RETANGLE TOP
comparison compare.py generated CTANGLE 0 4000
comparison web_tokens.py CTANGLE 0 4000
comparison compare.py short CTANGLE 50
comparison compare.py long_lines CTANGLE
scripts compare.py scripts RETANGLE 0 4000
scripts compare.py borders RETANGLE 0 500
scripts compare.py edited_long_lines RETANGLE
layers layer_cases.py LAYERS REFUSE TOP
layers compare.py layers LAYERS 0 4000
layers compare.py edited_layers LAYERS 5000 1000
layers compare.py layers_at_limits LAYERS
limits limit_cases.py CTANGLE RETANGLE TOP
memory refused.py RETANGLE REFUSE TOP
memory counted.py RETANGLE REFUSE
example build.py CTANGLE RETANGLE TOP
END
}

# Runs the tests of a part of the table; whether it has any.
run_part_in_python() { # PART
    parts_in_python | grep "^$1 " >"$temporary/table" || return
    while read -r part file arguments; do
        start_in_python "$part" "$file" $arguments <&3
    done 3<&0 <"$temporary/table"
    return 0
}

start_in_python() { # PART FILE WORD..
    started=$1 file=$2
    shift 2
    for word; do
        shift
        case $word in
        CTANGLE) find_ctangle "$started" && word=$ctangle ;;
        RETANGLE) find_retangle "$started" && word=$retangle ;;
        LAYERS) find_layers "$started" && word=$layers ;;
        FAIL) compile_library "$started" fail && word=$temporary/fail.so ;;
        REFUSE) compile_library "$started" refuse && word=$temporary/refuse.so ;;
        TOP) word=$top ;;
        esac || return
        set -- "$@" "$word"
    done
    run_python "$started, $file" "$file" "$@"
}
