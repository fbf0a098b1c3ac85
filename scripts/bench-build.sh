#!/usr/bin/env bash
# Builds the benchmark with the archive, by the kit's clang: bench-build.sh OUT ARCHIVE
set -euo pipefail
cd "$(dirname "$0")/.."
source scripts/kit.sh
out=$1 archive=$2 objects=()
flags=(--target="$target" -std=c99 -Wall -Wextra -Wpedantic -Werror -O2 -fno-pie -fno-stack-protector -Iinclude -Ibench)

compile() {
    local source=$1 object=$2
    shift 2
    # shellcheck disable=SC2046
    "$tools/bin/clang" "${flags[@]}" $(system_includes) "$@" -c "bench/$source" -o "$object"
    objects+=("$object")
}

# what is measured stands behind mark.c
mkdir -p "$(dirname "$out")"
compile start.c "$out.start.o" -ffreestanding
compile bench.c "$out.bench.o" -ffreestanding
compile work.c "$out.work.o"
compile work.c "$out.work-plain.o" -include bench/plain.h
compile mark.c "$out.mark.o"
compile memory.c "$out.memory.o" -ffreestanding
compile baselines.c "$out.baselines.o" -ffreestanding
compile plain.c "$out.plain.o"
"$tools/bin/ld.lld" -static -o "$out" "${objects[@]}" --whole-archive "$archive"
