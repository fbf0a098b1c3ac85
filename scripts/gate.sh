#!/usr/bin/env bash
# The whole gate: rt ci proves every crate, tries its must-fail edits and runs the programs; then the tests in C. The last line is the sum of both,
# 'N passed, M failed'.
set -uo pipefail
cd "$(dirname "$0")/.." || exit 2
# the tests take the archive that was proved here
unset ARCHIVE
status=0 passed=0 failed=0
log=$(mktemp)
trap 'rm -f "$log"' EXIT

# runs a command, shows what it prints, and adds its last line to the sum; without such a line it has failed once
part() {
    local one=0 last
    "$@" 2>&1 | tee "$log"
    one=${PIPESTATUS[0]}
    last=$(tail -n 1 "$log")
    if [[ $last =~ ([0-9]+)\ passed,\ ([0-9]+)\ failed ]]; then
        passed=$((passed + BASH_REMATCH[1])) failed=$((failed + BASH_REMATCH[2]))
        [ "$one" -eq 0 ] || [ "${BASH_REMATCH[2]}" -ne 0 ] || failed=$((failed + 1))
    else
        failed=$((failed + 1))
    fi
    [ "$one" -eq 0 ] || status=1
}

part rt ci
# rt ci passes an edit that cannot be applied or read, and counts it as bad; the gate does not
if ! grep -E '^rt: ok; ' "$log" | grep -qvE ', [0-9]+ bad'; then
    echo 'a must-fail edit is bad, or rt ci does not say that none is'
    status=1 failed=$((failed + 1))
fi
part make --no-print-directory test
echo "$passed passed, $failed failed"
[ $status -eq 0 ] && [ $failed -eq 0 ]
