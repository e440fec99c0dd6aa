#!/bin/sh
# docs/PROMISES.md against the tree: every place that it cites is there, and every public function of a library is cited.
# A place is CRATE/specs/FILE:NAME, CRATE/proofs/FILE:NAME (a definition, record or law) or CRATE/src/FILE:NAME (a
# function or constant), in backticks. A conversion is its function `from`.
set -u
cd "$(dirname "$0")/.." || exit 2
. tests/lib.sh
promises=docs/PROMISES.md

awk 'BEGIN { RS = "`" } NR % 2 == 0 && /^[a-z_]+\/(specs|proofs|src)\/[^:]+:[^ ]+$/ { print }' "$promises" | sort -u >"$work/cited"

# is NAME declared in FILE
declared() { # FILE NAME
    [ -f "$1" ] && NAME=$2 awk '
        { sub(/^[ \t]+/, "") }
        { while (sub(/^(unfoldable|abbrev|pub|pub\(crate\)|extern "C") /, "")) { } }
        {
            split($0, word, /[ (:<]+/)
            k = (word[1] ~ /^(fn|const|record|data|ruleset)$/) ? 2 : 1
            if (word[k] == ENVIRON["NAME"] && (k == 2 || $0 ~ / : /)) found = 1
        }
        END { exit !found }' "$1"
}

while IFS= read -r place; do
    path=${place%:*} name=${place##*:}
    case $path in
    */src/*) file=crates/$path.rt ;;
    *) file=crates/$path.antt ;;
    esac
    expect "$promises cites $place, which is not there" declared "$file" "$name"
done <"$work/cited"
expect "$promises cites fewer than a hundred places" [ "$(wc -l <"$work/cited")" -ge 100 ]

# public_functions FILE: the names of its public functions: those that are `pub`, and those of an `impl` of a trait that names no type
# which the file keeps to itself
public_functions() {
    awk '
        NR == FNR {
            if (sub(/^(pub\(crate\) )?(struct|enum) /, "")) { sub(/[^A-Za-z0-9_].*/, ""); kept[$0] }
            next
        }
        /^impl/ {
            of_trait = / for /
            n = split($0, word, /[^A-Za-z0-9_]+/)
            for (i = 1; i <= n; i++) if (word[i] in kept) of_trait = 0
        }
        /^}/ { of_trait = 0 }
        { sub(/^[ \t]+/, "") }
        /^pub (extern "C" )?fn / || (of_trait && /^fn /) { sub(/^(pub )?(extern "C" )?fn /, ""); sub(/[(<].*/, ""); print }' "$1" "$1"
}

# every public function of a library, but for what only its own crate can call
for lib in crates/*/src/lib.rt; do
    crate=${lib#crates/}
    crate=${crate%%/*}
    for file in "crates/$crate"/src/*.rt; do
        path=${file#crates/}
        public_functions "$file" >"$work/public"
        while IFS= read -r name; do
            expect "$promises does not cite the public function ${path%.rt}:$name" grep -qxF "${path%.rt}:$name" "$work/cited"
        done <"$work/public"
    done
done
finish
