#!/bin/sh
# tests/readme.sh: holds the README to what it shows: what ./look, ./lyre card and ./lyre tray print, and the program for C, which examples/run runs.
set -eu
cd "$(dirname "$0")/.."
work=$(mktemp -d)
trap 'rm -rf "$work"' EXIT

# shows PART COMMAND: the key=value lines of a part of the README are what the command prints that stands in it, from its name on
shows() {
    sed -n "$1" README.md >"$work/part"
    command=$(sed -n "s/^    \\($2 [^ ]*\\( [^ ]*\\)\\{0,1\\}\\)   .*/\\1/p" "$work/part")
    sed -n 's/^    \([a-z0-9]*=.*\)/\1/p' "$work/part" >"$work/shown"
    [ -n "$command" ] && [ -s "$work/shown" ] || { echo "readme: shows no $2"; exit 1; }
    $command >"$work/printed"
    diff "$work/shown" "$work/printed" || { echo "readme: $command prints something else (>) than the README shows (<)"; exit 1; }
}

shows '1,/^## /p' '\.\/look'
shows '/^## The stylus card/,/^## A tray/p' '\.\/lyre card'
shows '/^## A tray/,/^## From C/p' '\.\/lyre tray'
sed -n '/^```c$/,/^```$/{/^```/!p;}' README.md >"$work/program"
diff "$work/program" examples/turns.c || { echo 'readme: the program for C (<) is not examples/turns.c (>)'; exit 1; }
echo 'readme: shows what is so'
