#!/usr/bin/env bash
# Builds the program example.c with the library for C, and has it judge some of the examples.
#
# usage: c/check.sh [LIBRARY]
#
# LIBRARY is the static library fa_audit_c as `rt lib` built it. The C library's memory is reached through the toolchain's own few lines
# of C. The compiler is cc, or ${CC}. The last line is 'N passed, M failed', and the status is 1 where one failed.
set -euo pipefail
here=$(cd "$(dirname "${BASH_SOURCE[0]}")" && pwd)
library=$(realpath "${1:-$here/../crates/fa_audit_c/out/libfa_audit_c.a}")
runtime=$(dirname "$(rt doc)")/c/liblibc_c.a
room=$(mktemp -d)
trap 'rm -rf "$room"' EXIT
"${CC:-cc}" -std=c11 -Wall -Wextra -Werror -I "$here" -o "$room/example" "$here/example.c" "$library" "$runtime"
passed=0
failed=0
tell() {
    local wanted=$1 status=0 line
    shift
    line=$("$room/example" "${@/#/$here/../examples/}") || status=$?
    if [ "$line: $status" = "$wanted" ]; then
        passed=$((passed + 1))
    else
        failed=$((failed + 1))
        echo "$*: '$line: $status', and not '$wanted'"
    fi
}
tell 'legal: 4 messages, 1 placed, 0 left out: 0' first-lookup.cap first-lookup.order
tell 'fault: message 4: code 31: no request waits for this reply: 1' answered-twice.cap answered-twice.order
tell 'legal: 6 messages, 2 placed, 0 left out: 0' two-names.cap two-names.order two-names.tree
tell 'not shown: entry 0: message 2: code 81: success not allowed: 2' two-names.cap two-names.order
tell 'tree: line 1: code 61: not a tree text: 3' two-names.cap two-names.order two-names.order
echo "$passed passed, $failed failed"
[ "$failed" -eq 0 ]
