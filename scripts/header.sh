#!/usr/bin/env bash
# Compiles the header alone: header.sh LANGUAGE STANDARD
set -euo pipefail
cd "$(dirname "$0")/.."
source scripts/kit.sh
# shellcheck disable=SC2046
printf '%s\n' '#include "winchclover.h"' 'uint32_t pool[WINCH_POOL_WORDS(2, 4, 2, 2)];' 'char as_document_01[sizeof pool == 208 * 4 ? 1 : -1];' |
    "$tools/bin/clang" --target="$target" $(system_includes) -x "$1" -std="$2" -Wall -Wextra -Wpedantic -Werror -Iinclude -fsyntax-only -
