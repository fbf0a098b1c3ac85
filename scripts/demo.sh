#!/usr/bin/env bash
# Builds the archive and runs the example with it.
set -euo pipefail
cd "$(dirname "$0")/.."
scripts/setup.sh build
archive=$(scripts/archive.sh)
scripts/cc.sh target/c/order_list "$archive" examples/order_list.c
scripts/run.sh "$archive" target/c/order_list
