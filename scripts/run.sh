#!/usr/bin/env bash
# Runs a program that cc.sh has made: run.sh ARCHIVE PROGRAM ARGUMENT..
set -euo pipefail
program=$(readlink -f "$2")
shift 2
exec "$program" "$@"
