#!/bin/sh
# tests/cited.sh: holds the tables of docs/PROMISES.md to the source. A row's last cell is a file or folder below crates/, and each
# name in backquotes in the cell before it is declared in that file, or is an edit in that folder.
set -eu
cd "$(dirname "$0")/.."

# cited: a line for each name: where it is said to stand, and the name
cited() {
    awk -F ' *\\| *' 'NF == 5 && $4 ~ /\// {
        while (match($3, /`[^`]*`/)) {
            print $4, substr($3, RSTART + 1, RLENGTH - 2)
            $3 = substr($3, RSTART + RLENGTH)
        }
    }' docs/PROMISES.md
}

# How a name is declared: after a word that says as what, or, in a definition or theorem, before its type.
kinds='record|data|fn|const|static|struct|enum'
words='unfoldable|abbrev|pub|pub\(crate\)'
names=$(cited | wc -l)
cited | while read -r place name; do
    if [ -d "crates/$place" ]; then
        [ -f "crates/$place/$name.edit" ] || echo "$place: $name"
    else
        grep -Eq "^ *(($words) )*((($kinds) $name([ :(<]|\$))|$name :)" "crates/$place" || echo "$place: $name"
    fi
done | grep . && { echo 'cited: these are cited, but not declared there'; exit 1; }
[ "$names" -gt 0 ]
echo "cited: the $names names of docs/PROMISES.md stand where it says"
