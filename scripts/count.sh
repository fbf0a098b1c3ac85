#!/usr/bin/env bash
# Counts instructions: count.sh PROGRAM. Prints a line for each measurement of the benchmark: who, what, size, steps, instructions.
# By valgrind. Counted is what lies behind bench_mark in the program's text; every second mark ends a measurement.
set -euo pipefail
shopt -s extglob
cd "$(dirname "$0")/.."
program=$(readlink -f "$1")
mark=$(nm "$program" | awk '$3 == "bench_mark" { print $1 }')
work=$(mktemp -d)
trap 'rm -rf "$work"' EXIT

(cd "$work" && valgrind -q --tool=callgrind --dump-instr=yes --compress-strings=no --compress-pos=no --dump-before=bench_mark \
    --callgrind-out-file=out "$program" > labels)
# a part for each mark: the code since the mark before. A line of costs is address, line, count; the one after 'calls=' is not its own
parts=("$work"/out.*)
for k in $(seq 2 2 ${#parts[@]}); do
    awk -v mark="0x${mark##+(0)}" '
        /^calls=/ { getline; next }
        /^0x/ && length($1) >= length(mark) && (length($1) > length(mark) || $1 "" > mark "") { n += $3 }
        END { print n + 0 }' "$work/out.$k"
done > "$work/counts"
if [ "$(wc -l < "$work/labels")" -ne "$(wc -l < "$work/counts")" ]; then
    echo "the marks and the measurements do not match" >&2
    exit 1
fi
paste "$work/labels" "$work/counts"
