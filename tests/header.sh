#!/bin/sh
# tests/header.sh: holds include/lyre.h to crates/lyre and crates/lyre_c. The structs for C of the one and what the other exports, written
# as C, have to be all that the header declares, in the same order; and a C compiler has to lay the structs out as #[repr(C)] does.
set -eu
. "$(dirname "$0")/../second/machine.sh"

# One declaration a line, with single spaces.
lay() {
    tr -s ' \n' ' ' | sed -E 's/ ?([(){;]) ?/\1/g; s/,?\)/)/g' | grep -oE "$1" || true
}

# A slice is a pointer and a length; an image's length is called n, a text's room where it is written into, and that of a text or a
# tray that is read, length.
{
    sed 's:^ *//.*::' "$root/crates/lyre/src/lib.rt" | lay '#\[repr\(C\)\] (#\[derive[^]]*\] )?pub struct [^}]*\}'
    sed 's:^ *//.*::' "$root/crates/lyre_c/src/lib.rt" | lay '#\[unsafe\(no_mangle\)\] pub extern "C" fn [^)]*\)-> (lyre::)?\w+'
} |
    sed -E '
        s/lyre:://g
        s/#\[derive[^]]*\] //
        s/([a-z])([A-Z])/\1_\2/g
        s/#\[repr\(C\)\] pub struct (\w+)\{(.*)\}/typedef struct{\2} lyre_\L\1;/
        s/#\[unsafe\(no_mangle\)\] pub extern "C" fn (\w+)\((.*)\)-> (\w+)/lyre_\L\3\E \1(\2);/
        s/^lyre_u32 /uint32_t /
        s/(\w+): &mut \[u(8|32)\]/uint\2_t *\1, size_t \1_n/g
        s/(\w+): &\[u(8|32)\]/const uint\2_t *\1, size_t \1_n/g
        s/image_n/n/
        s/(const uint8_t \*(text|tray), size_t) \2_n/\1 length/
        s/(uint8_t \*text, size_t) text_n/\1 room/
        s/(pub )?(\w+): \[u32; ?([0-9]+)\]/uint32_t \2[\3]/g
        s/(pub )?(\w+): u(8|32|64)/uint\3_t \2/g
        s/(pub )?(\w+): i64/int64_t \2/g
        s/(\w+): usize/size_t \1/g
        /^typedef/s/, ?/;/g' >"$work/source"
sed -E '/^#/d; s:/\*[^*]*\*/::g; /\/\*/,/\*\//d' "$root/include/lyre.h" |
    lay 'typedef struct\{[^}]*\} \w+;|[^;{}]*\([^)]*\);' >"$work/header"
[ "$(wc -l <"$work/source")" -eq 25 ] || { echo 'header: not twenty-five exports in the source'; cat "$work/source"; exit 1; }
diff "$work/source" "$work/header" || { echo 'header: lyre.h (>) is not what the source exports (<)'; exit 1; }

$compiler -fsyntax-only -x c - <<C
#include "$root/include/lyre.h"
#define AT(type, field, offset) _Static_assert(offsetof(type, field) == offset, #type "." #field)
#define SIX(type) AT(type, code, 0); AT(type, count, 4); AT(type, lag, 8); AT(type, place, 16); AT(type, writes, 24); AT(type, tried, 32)
SIX(lyre_answer);
_Static_assert(sizeof(lyre_answer) == 40, "lyre_answer");
SIX(lyre_read_answer);
AT(lyre_read_answer, bit, 40);
_Static_assert(sizeof(lyre_read_answer) == 72, "lyre_read_answer");
AT(lyre_part, code, 0);
AT(lyre_part, start, 8);
AT(lyre_part, length, 16);
_Static_assert(sizeof(lyre_part) == 24, "lyre_part");
SIX(lyre_kept);
AT(lyre_kept, high, 40);
AT(lyre_kept, low, 48);
_Static_assert(sizeof(lyre_kept) == 56, "lyre_kept");
AT(lyre_room, high, 0);
AT(lyre_room, low, 8);
_Static_assert(sizeof(lyre_room) == 16, "lyre_room");
AT(lyre_hex, code, 0);
AT(lyre_hex, line, 8);
AT(lyre_hex, length, 16);
_Static_assert(sizeof(lyre_hex) == 24, "lyre_hex");
AT(lyre_card, code, 0);
AT(lyre_card, used, 4);
AT(lyre_card, left, 8);
AT(lyre_card, time, 16);
_Static_assert(sizeof(lyre_card) == 24, "lyre_card");
AT(lyre_text, code, 0);
AT(lyre_text, length, 8);
_Static_assert(sizeof(lyre_text) == 16, "lyre_text");
C
echo 'header: lyre.h declares what the archive exports'
