#!/usr/bin/env bash
# Tries the wrong programs of this folder: the prover has to refuse each.
#
# usage: wrong/try.sh [CRATE..]
#
# Without a name it tries those of every crate. `rt ci` tries the few in crates/CRATE/must-fail; those here have the same
# form (file, old and new lines) and are tried by this script alone, which takes about half a minute for each.
#
# First `wrong/compiles.py` compiles those of these crates, and ends the run where one does not: it counts for nothing. What each is
# refused by, `wrong/clauses.py` tells, and README.md lists.
#
# It works on a copy in a temporary folder, in which wrong/CRATE stands in the place of crates/CRATE/must-fail, and removes
# the copy at its end. Libraries that stand built in out/rlib are taken along; where one is not there or its crate was
# changed since, the copy builds it first, in some minutes.
#
# It prints what `rt must-fail` says of each, and at the end `N refused, M not refused`. The status is 0 where each was
# refused, 1 where one was not or is no good edit, and 2 for a name that is no crate with wrong programs.
set -euo pipefail

top=$(cd "$(dirname "${BASH_SOURCE[0]}")/.." && pwd)
names=("$@")
if [ ${#names[@]} -eq 0 ]; then
    for folder in "$top"/wrong/*/; do
        names+=("$(basename "$folder")")
    done
fi
for name in "${names[@]}"; do
    if [ ! -d "$top/wrong/$name" ] || [ ! -d "$top/crates/$name" ]; then
        echo "wrong/try.sh: there are no wrong programs of a crate $name" >&2
        exit 2
    fi
done

"$top/wrong/stands.py"
"$top/wrong/compiles.py" "${names[@]}"

copy=$(mktemp -d)
trap 'rm -rf "$copy"' EXIT
cp "$top/crates.txt" "$copy"
for folder in "$top"/crates/*/; do
    to=$copy/crates/$(basename "$folder")
    mkdir -p "$to/out"
    for part in src specs proofs out/rlib; do
        if [ -d "$folder$part" ]; then
            cp -a "$folder$part" "$to/$part"
        fi
    done
done
for name in "${names[@]}"; do
    cp -a "$top/wrong/$name" "$copy/crates/$name/must-fail"
done

cd "$copy"
refused=0
all=0
is_well=1
for name in "${names[@]}"; do
    rt must-fail "$name" >"$copy/said" 2>&1 || is_well=0
    cat "$copy/said"
    refused=$((refused + $(grep -c "^rt: must-fail $name/.*: refused, as it must be" "$copy/said" || true)))
    all=$((all + $(find "crates/$name/must-fail" -type f ! -name '*.md' | wc -l)))
done
echo "$refused refused, $((all - refused)) not refused"
[ "$is_well" -eq 1 ] && [ "$refused" -eq "$all" ]
