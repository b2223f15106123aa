#!/bin/sh
# tests/format.sh [PAGE]: does the runs of docs/FORMAT.md, or of a copy of it, with the archive, and compares all they show with what
# comes back: answers, cells, codes.
set -eu
. "$(dirname "$0")/../second/machine.sh"
need_archive
page=$(readlink -f "${1:-$root/docs/FORMAT.md}")
cd "$root"

# The lines between ```run and ```, without remarks and with single spaces.
sed -n '/^```run$/,/^```$/{
    /^```/d
    s/#.*//
    s/  */ /g
    s/^ //
    s/ $//
    /./p
}' "$page" >"$work/shown"
for word in chip open read counts step power torn part cells worn file call nibble codes bytes bits; do
    grep -qw "$word" "$work/shown" || { echo "format: no run of the page has the word $word"; exit 1; }
done
$compiler tests/format.c "$archive" -o "$work/format"
$emulator "$work/format" <"$work/shown" >"$work/done"
diff "$work/shown" "$work/done" || { echo 'format: the page (<) shows something else than the archive does (>)'; exit 1; }
echo "format: the $(wc -l <"$work/shown") lines of the page's runs are what the archive does"
