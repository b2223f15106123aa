#!/usr/bin/env bash
# tests/look.sh: holds ./look to document 01 ("What comes back", "Measured on the bench") and document 02 (P1, P3) on images of many
# lengths and readings, and on inputs that are no image. Prints what differs; exits 1 if anything did.
set -u
root=$(dirname -- "$(dirname -- "$(readlink -f -- "$0")")")
example=$root/examples/setting-a.bin
work=$(mktemp -d)
trap 'rm -rf "$work"' EXIT
failed=0

# says WHAT GOT WANTED
says() {
    [ "$2" != "$3" ] || return 0
    printf '%s: got\n%s\nwanted\n%s\n' "$1" "$2" "$3"
    failed=1
}

# answer CODE COUNT LAG PLACE [BIT..]: the twelve lines; the bits not given are 0
answer() {
    printf 'code=%s\ncount=%s\nlag=%s\nplace=%s\n' "${@:1:4}"
    for bit in 0 1 2 3 4 5 6 7; do
        at=$((bit + 5))
        echo "bit$bit=${!at:-0}"
    done
    printf .
}

# looks WHAT CODE COUNT LAG PLACE [BIT..]: at the image $work/image
looks() {
    says "$1" "$("$root/look" "$work/image"; printf .)" "$(answer "${@:2}")"
}

# sized BYTES: the example cut to so many bytes, or filled up with FF
sized() {
    { cat "$example"; head -c 9000 /dev/zero | tr '\0' '\377'; } | head -c "$1" >"$work/image"
}

# with ADDRESS BYTE ..: the example with other bytes at some addresses, bytes in hex
with() {
    cp "$example" "$work/image"
    while [ $# -gt 0 ]; do
        printf "\\x$2" | dd of="$work/image" bs=1 seek="$1" conv=notrunc status=none
        shift 2
    done
}

# refused WHAT FILE: a message that names the file, nothing printed, a status that is not 0
refused() {
    said=$("$root/look" "$2" 2>&1 >"$work/printed") && says "$1" 'status 0' 'another status'
    case $said in *"$2"*) ;; *) says "$1" "$said" "a message that names $2" ;; esac
    says "$1" "$(wc -c <"$work/printed")" 0
}

# the lengths
for n in 0 40 4097 9000; do sized $n; looks "$n bytes" 1 0 0 0; done
for n in 41 128; do sized $n; looks "$n bytes" 2 0 0 0; done
for n in 129 130 4096; do sized $n; looks "$n bytes" 0 3 0 0; done

# what the counter answers; cells 128 and 125 hold nibble 0 of the copies, 29 and 34 nibble 7
with 1 FF; looks 'no mark' 3 0 0 0
with 9 1A; looks 'two pointers alike' 4 0 0 0
with 128 CB 125 B3; looks 'lag 1' 0 5 1 0
with 128 B3 125 CB; looks 'lag -1' 6 0 -1 0
with 128 CB 125 19; looks 'lag 2' 6 0 2 0
with 128 80 125 80 34 34; looks 'the least lag' 6 0 -4294967295 0
with 128 80 125 80 29 34; looks 'the greatest lag' 6 0 4294967295 0
with 128 80 125 80 29 34 34 34; looks 'the greatest count' 0 4294967295 0 0
with 29 01 34 01; looks 'nibble 7 lost' 5 0 0 7

# which bits were mended; 19 is the code that the example holds, 80 that of its other cells
with 128 18; looks 'bit 0' 0 3 0 0 1
with 125 99; looks 'bit 7, copy 2' 0 3 0 0 0 0 0 0 0 0 0 1
with 128 18 125 01; looks 'lent to copy 2' 0 3 0 0 1
with 128 09 125 11 34 88; looks 'bits 4, 3 and 3' 0 3 0 0 0 0 0 2 1
with 128 CA 125 B3; looks 'lag 1' 0 5 1 0 1
with 128 CA 125 19; looks 'counts of refusal 6' 6 0 2 0
with 128 18 29 01 34 01; looks 'counts of refusal 5' 5 0 0 7
with 128 18 9 1A; looks 'counts of refusal 4' 4 0 0 0
for at in 25 26 27 28 29 30 31 32 33 34 123 124 126 127; do set -- "$@" $at A0; done
with "$@" 128 39 125 39; looks 'all cells in bit 5' 0 3 0 0 0 0 0 0 0 16

# erased cells
with 128 FF; looks 'FF in copy 1' 0 3 0 0
with 125 00; looks '00 in copy 2' 0 3 0 0
with 128 FF 125 FF; looks 'FF in both copies' 5 0 0 0

# the example as it stands, on standard input, from another folder, by a name of its own
says 'the example' "$("$root/look" "$example"; printf .)" "$(cat "$root/examples/setting-a.txt"; printf .)"
says 'the example in the crate' "$(cmp "$example" "$root/crates/look/stdin" 2>&1)" ''
says 'what it prints in the crate' "$(cmp "$root/examples/setting-a.txt" "$root/crates/look/stdout" 2>&1)" ''
says 'standard input' "$("$root/look" <"$example"; printf .)" "$(answer 0 3 0 0)"
says 'a pipe' "$(cat "$example" | "$root/look"; printf .)" "$(answer 0 3 0 0)"
says 'another folder' "$(cd "$work" && cp "$example" 'a chip' && "$root/look" 'a chip'; printf .)" "$(answer 0 3 0 0)"
says 'a link' "$(cd "$work" && ln -s "$root/look" 'a name' && './a name' 'a chip'; printf .)" "$(answer 0 3 0 0)"

# inputs that are no image
refused 'a missing file' "$work/missing"
refused 'a folder' "$work"

[ $failed -eq 0 ] && echo 'look: as the documents say'
exit $failed
