#!/bin/sh
# tests/promised.sh: every public function of a library crate, every method of a public trait, and every conversion by From has a promise, and it
# is proved that it leaves one answer; what the archive for C exports is a function of the library lyre, with its arguments and its clauses;
# no door of the counter, of intelhex, of card, of dumps or for C has a `requires`; no definition but the inside's own rests on a
# specs/Inside.antt; and only the cells index lives, so that what they promise is all that the crates above them know of lives.
set -eu
cd "$(dirname "$0")/.."

# heads FILE..: a line for each public function and each method of a public trait: its file and name, and the words requires and ensures
# where its head has them
heads() {
    awk '
        /^pub trait / { trait = 1 }
        /^}/ { trait = 0 }
        trait && match($0, /^ *fn [a-z_0-9]+/) { name = substr($0, RSTART, RLENGTH); sub(/.* /, "", name); says = ""; open = 1 }
        match($0, /^ *pub (extern "C" )?fn [a-z_0-9]+/) { name = substr($0, RSTART, RLENGTH); sub(/.* /, "", name); says = ""; open = 1 }
        open && /requires/ { says = says " requires" }
        open && /ensures/ { says = says " ensures" }
        open && ($0 ~ /^ *\{$/ || ($0 ~ /\{$/ && $0 !~ /(requires|ensures)/) || (trait && /;$/)) { print FILENAME ": " name says; open = 0 }
    ' "$@"
}

# conversions FILE..: a line for each From: its file, a name of both types as in u32_from_refusal, and ensures where its clause is there
conversions() {
    awk '
        # Of a path of three words the first is left out, as the prover leaves it out of the names of contracts.
        function named(head,    at) {
            sub(/^impl(<[^>]*>)? From</, "impl From<", head)
            at = index(head, "> for ")
            head = substr(head, at + 6, length(head) - at - 7) " from " substr(head, 11, at - 11)
            gsub(/\(\)/, "unit", head)
            while (match(head, /[a-z_]+::[a-z_]+::/))
                head = substr(head, 1, RSTART - 1) substr(head, RSTART + index(substr(head, RSTART), "::") + 1)
            while (match(head, /[a-z0-9][A-Z]/)) head = substr(head, 1, RSTART) "_" substr(head, RSTART + 1)
            gsub(/[^A-Za-z0-9]+/, "_", head)
            sub(/_$/, "", head)
            return tolower(head)
        }
        /^impl(<[^>]*>)? From</ { name = named($0); says = "" }
        name && /ghost from_gives = / { says = " ensures" }
        name && /^}/ { print FILENAME ": " name says; name = "" }
    ' "$@"
}

# whole FILE..: a line for each public function: its whole head, however it is laid out and whether or not it is for C
whole() {
    awk '
        /^ *pub (extern "C" )?fn / { head = ""; open = 1 }
        open && /^\{$/ { print head; open = 0 }
        open { head = head " " $0 }
    ' "$@" | sed -E 's/extern "C" //; s/\blyre:://g; s/ +/ /g; s/\( /(/; s/,? \)/)/; s/^ //' | sort
}

# The libraries, but not what is made of one, the archive for C.
libraries() {
    sed -n '/staticlib/d; s/[ :].*//p' crates.txt
}

public() {
    libraries | while read -r crate; do
        [ ! -f "crates/$crate/src/lib.rt" ] || { heads "crates/$crate"/src/*.rt && conversions "crates/$crate"/src/*.rt; }
    done
}

[ "$(public | wc -l)" -gt 0 ] || { echo 'promised: no public function was found'; exit 1; }
public | grep -v ensures && { echo 'promised: these promise nothing'; exit 1; }
heads crates/counter/src/doors.rt crates/counter/src/trials.rt crates/intelhex/src/lib.rt crates/card/src/lib.rt crates/dumps/src/*.rt \
    crates/lyre/src/lib.rt crates/lyre_c/src/lib.rt | grep requires && { echo 'promised: these ask something'; exit 1; }
public | awk '{ print $2 }' | while read -r name; do
    # NoSecond.antt calls the module of `open` opens, and what is generic stands in brackets with what it is said of
    grep -Eq "^ *pub ${name}_one : Sole 𝓤 \(?${name}s?\.ended " crates/sole/proofs/NoSecond.antt || echo "$name"
done | grep . && { echo 'promised: of these it is not proved that they leave one answer'; exit 1; }
work=$(mktemp -d)
trap 'rm -rf "$work"' EXIT
whole crates/lyre/src/lib.rt >"$work/library"
whole crates/lyre_c/src/lib.rt >"$work/archive"
[ -s "$work/archive" ] || { echo 'promised: no export was found'; exit 1; }
diff "$work/library" "$work/archive" || { echo 'promised: the archive (>) promises something else than the library lyre does (<)'; exit 1; }
grep -l 'specs\.Inside' crates/*/specs/*.antt && { echo 'promised: these rest on the inside'; exit 1; }
# chips.rt makes the chips of the cases, lives and all.
grep -rnE 'lives *\[' crates/*/src | grep -Ev '^crates/(cells/|cases/src/chips\.rt:)' && { echo 'promised: these index lives'; exit 1; }
echo 'promised: every public function of a library promises and leaves one answer, no door asks, and only the cells index lives'
