#!/usr/bin/env bash
# Prints, for each point of docs/DESIGN-PASS.md, the lines of crates/*/src in which an older form of the language may stand. Not every line is such a place; the page tells which are.
# Usage: tools/places.sh [COMMIT], which reads that commit in place of the folder.
set -u
cd "$(dirname "$0")/.."
if [ $# -gt 0 ]; then
    folder=$(mktemp -d)
    trap 'rm -rf "$folder"' EXIT
    git archive "$1" crates | tar -x -C "$folder"
    cd "$folder" || exit 1
fi

look() {
    echo "== $1"
    shift
    grep -rnE "$@" crates/*/src --include='*.rt' | sed 's/^crates.//'
    echo
}

look "1 numbers for kinds and refusals, flags, sentinels, a match that is a map or a ?" \
    '=> (0|[0-9]+),?$|-> bool$|-> bool |else \{ *0 *\}|^ +0$|Err\(([a-z_]+|_)\) => |Ok\([a-z_()]*\) => Ok|Some\([a-z_]+\) => Some|None => None|-> u8$|or 0\b|or the length'
look "2 impls of one trait for several types, and functions whose names differ in a type" \
    '^impl.* for |fn [a-z_]*(u16|u32|i64|amount|standing|reads|writes|read|write|signed|one|two)[a-z_]*[(<]'
look "3 loops, and indices less or more one" '^ *(while|for|loop)\b|\[[a-z_]+ [-+] 1\]'
look "4 conversions, comparisons and printing by hand, and types with no derive of equality" \
    'fn (from_[a-z]+|number|to_[a-z]+|letter|new|eq|cmp|fmt)[(<]|^ +[A-Za-z:]+(\([a-z_]+\))? => (true|false),|^ +_ => false,|derive\(Clone, Copy\)'
look "5 clauses" '^ +(ensures|requires) '
look "6 buffers with a length, indices" 'len: usize|position: usize|\[[a-z_]+( as usize)?\]|items: \['
look "7 traits, and types in the place of closures" 'trait |impl.*(Predicate|ElementWriter).* for '
