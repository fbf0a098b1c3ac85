#!/usr/bin/env bash
# Compiles C sources and links them with the archive: cc.sh OUT ARCHIVE SOURCE..
# With 'plain' as the archive: bench/plain.c and bench/plain_check.c, the same functions written by hand in C.
set -euo pipefail
cd "$(dirname "$0")/.."
out=$1 archive=$2
shift 2
flags=(-std=c99 -Wall -Wextra -Wpedantic -Werror -O2 -Iinclude -Ibench -Itests)
mkdir -p "$(dirname "$out")"

if [ "$archive" = plain ]; then
    exec cc "${flags[@]}" -include bench/plain.h -o "$out" "$@" bench/plain.c bench/plain_check.c
fi
exec cc "${flags[@]}" -o "$out" "$@" "$archive"
