#!/usr/bin/env bash
# Builds the archive and the benchmark, counts, and writes docs/BENCHMARK.md and docs/benchmark.svg.
set -euo pipefail
cd "$(dirname "$0")/.."
scripts/setup.sh bench
archive=$(scripts/archive.sh)
docs=docs
# figures of an archive that was not built here do not go into the documents
if [ -n "${ARCHIVE:-}" ]; then
    docs=target/c
    echo "the archive was given: the report goes to $docs"
fi
scripts/bench-build.sh target/c/bench "$archive"
scripts/count.sh target/c/bench > target/c/bench.tsv
how="valgrind's callgrind on x86-64"
awk -f scripts/report.awk -v how="$how" -v kit="$(rt version)" target/c/bench.tsv > "$docs/BENCHMARK.md"
awk -f scripts/plot.awk target/c/bench.tsv > "$docs/benchmark.svg"
sed -n '/^## In short/,/^## /p' "$docs/BENCHMARK.md" | sed '1d;$d'
