# The web of examples/, tangled with and without its change file, compiled and run, and edited by a script; and what
# a build does with a web (tests/build.py).

test_example() {
    find_retangle example || return
    cp -R "$top/examples" "$temporary/example"
    rm -rf "$temporary/example/out"
    if ! make -C "$temporary/example" run CTANGLE="$temporary/ctangle" \
        RETANGLE="$retangle" >"$temporary/log" 2>&1; then
        fail example "$(tail -n 5 "$temporary/log")"
        return
    fi
    # 15 and 25 are the numbers of primes below 50 and 100
    for line in '15 primes below 50' '25 primes below 100'; do
        if grep -qx "$line" "$temporary/log"; then pass; else fail example "no line '$line'"; fi
    done
    # what comes out is beside the web for a reader
    for file in primes.c more-primes.c primes.h; do
        if cmp -s "$temporary/example/out/$file" "$top/examples/expected/$file"; then
            pass
        else
            fail example "another $file"
        fi
    done
}
