#!/usr/bin/env bash
# Proves and builds the archive and prints its path; where ARCHIVE names one, that one is taken.
set -euo pipefail
cd "$(dirname "$0")/.."
if [ -n "${ARCHIVE:-}" ]; then
    echo "$ARCHIVE"
    exit 0
fi
mkdir -p target/c target/staticlib
if ! (cd crates/winchclover_c && rt lib) > target/c/staticlib.log 2>&1; then
    cat target/c/staticlib.log >&2
    exit 1
fi
cp crates/winchclover_c/out/libwinchclover_c.a target/staticlib/libwinchclover.a
echo target/staticlib/libwinchclover.a
