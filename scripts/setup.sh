#!/usr/bin/env bash
# Installs what the build needs and the machine lacks; nothing where all is there. setup.sh build | bench
set -euo pipefail
cd "$(dirname "$0")/.."
missing=()
need() { command -v "$1" > /dev/null || missing+=("$2"); }

need cc gcc
need nm binutils
[ -e /usr/include/stdio.h ] || missing+=(libc6-dev)
if [ "${1:-build}" = bench ]; then need valgrind valgrind; fi
[ ${#missing[@]} -eq 0 ] && exit 0

as_root=()
if [ "$(id -u)" -ne 0 ]; then as_root=(sudo); fi
if ! command -v apt-get > /dev/null; then
    echo "please install: ${missing[*]}" >&2
    exit 2
fi
export DEBIAN_FRONTEND=noninteractive
"${as_root[@]}" apt-get -qq update > /dev/null
"${as_root[@]}" apt-get -qq install -y --no-install-recommends "${missing[@]}" > /dev/null
