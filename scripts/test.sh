#!/usr/bin/env bash
# Every test in C. test.sh: against the proved archive; test.sh plain: against the C by hand in bench/. The last line is 'N passed, M failed', the sum over all.
set -euo pipefail
cd "$(dirname "$0")/.."
scripts/setup.sh build
archive=plain out=target/c/plain
if [ "${1:-}" != plain ]; then
    archive=$(scripts/archive.sh) || { echo '0 passed, 1 failed'; exit 1; }
    out=target/c
fi
mkdir -p "$out"
passed=0 failed=0

tally() {
    echo "$1: $2 passed, $3 failed"
    passed=$((passed + $2)) failed=$((failed + $3))
}

# one command that passes or fails
one() {
    local name=$1
    shift
    if "$@" > "$out/one.log" 2>&1; then tally "$name" 1 0; else cat "$out/one.log"; tally "$name" 0 1; fi
}

# a program whose last line is 'N passed, M failed'; one that does not compile, dies or says nothing has failed once
program() {
    local name=$1 status=0 last
    shift
    {
        scripts/cc.sh "$out/$name" "$archive" "tests/$name.c" tests/harness.c tests/calls.c ${beside:-} &&
            scripts/run.sh "$archive" "$out/$name" "$@"
    } > "$out/$name.log" 2>&1 || status=$?
    last=$(tail -n 1 "$out/$name.log")
    sed '$d' "$out/$name.log"
    if [[ $last =~ ^([0-9]+)\ passed,\ ([0-9]+)\ failed$ ]] && { [ $status -eq 0 ] || [ "${BASH_REMATCH[2]}" != 0 ]; }; then
        tally "$name" "${BASH_REMATCH[1]}" "${BASH_REMATCH[2]}"
    else
        echo "$last"
        echo "$name ended with status $status"
        tally "$name" 0 1
    fi
}

example_as_told() {
    scripts/cc.sh "$out/order_list" "$archive" examples/order_list.c && scripts/run.sh "$archive" "$out/order_list" > "$out/order_list.txt" &&
        diff examples/order_list.txt "$out/order_list.txt"
}

# what README.md says of its page of C
readme_as_told() {
    sed -n '/^```c$/,/^```$/p' README.md | grep -v '^```' > "$out/readme.c"
    { echo 'old cell 7: 100' && printf 'cell %d: 100\n' {0..23}; } > "$out/readme.expected"
    scripts/cc.sh "$out/readme" "$archive" "$out/readme.c" && scripts/run.sh "$archive" "$out/readme" > "$out/readme.txt" &&
        diff "$out/readme.expected" "$out/readme.txt"
}

one 'header as C99' scripts/header.sh c c99
one 'header as C++17' scripts/header.sh c++ c++17
program sessions
beside=tests/small.c program functions
beside=tests/small.c program broken
program orders
if [ "$archive" = plain ]; then
    program damage 0
else
    one 'the archive exports the functions of the header and no other name' scripts/symbols.sh "$archive"
    program damage
    beside='tests/plain_calls.c bench/plain.c bench/plain_check.c' program both
fi
one 'the example prints what it should' example_as_told
one "README's page of C prints what it should" readme_as_told
echo "$passed passed, $failed failed"
[ $failed -eq 0 ]
