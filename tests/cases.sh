# The stored cases, a folder each, in tests/cases.

test_cases() {
    for folder in "$top"/tests/cases/*/*/; do
        name=${folder%/}
        name=${name#"$top"/tests/cases/}
        run_case "$name" "${folder%/}"
    done
}
