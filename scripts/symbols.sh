#!/usr/bin/env bash
# The archive exports exactly the functions that the header declares. It needs no name but memset, by which the compiler clears the large arrays of
# winch_check, and no other function or table of it has that name: symbols.sh ARCHIVE
set -euo pipefail
cd "$(dirname "$0")/.."
declared=$(grep -o '^uint32_t winch_[a-z_]*' include/winchclover.h | cut -d ' ' -f 2 | sort)
exported=$(nm -g --defined-only "$1" | awk 'NF == 3 { print $3 }' | sort)
undefined=$(nm -u "$1" | awk 'NF == 2 && $2 != "memset" { print $2 }')
users=$(objdump -r "$1" | awk '/^RELOCATION RECORDS FOR/ { section = $4 } $3 ~ /^memset([-+]|$)/ { print section }' | sort -u)
if [ -n "$undefined" ] || [ "${users:-[.text.winch_check]:}" != '[.text.winch_check]:' ]; then
    echo "undefined: $undefined; memset is used in: $users"
    exit 1
fi
diff <(echo "$declared") <(echo "$exported")
