#!/bin/sh
# tests/wrong.sh [--anew] [CRATE..]: has rt try the wrong programs in the wrong/ folders of the crates, or of those named, as it tries those
# of must-fail/, and fails unless the prover refuses each for a fact that it could not prove. One that it gave up on at a limit is refused too,
# and counted apart. rt begins with what `rt check` kept of a crate and tries a wrong program again only where something has changed; with
# --anew it tries all.
set -eu
cd "$(dirname "$0")/.."
anew=''
[ "${1:-}" != --anew ] || { anew=--anew; shift; }
[ $# -gt 0 ] || set -- $(sed 's/[ :].*//' crates.txt | while read -r crate; do [ ! -d "crates/$crate/wrong" ] || echo "$crate"; done)
for crate in "$@"; do
    [ -d "crates/$crate/wrong" ] || { echo "wrong: there is no folder crates/$crate/wrong"; exit 1; }
done
work=$(mktemp -d)
trap 'rm -rf "$work"' EXIT

# They are tried in a copy of the crates, in which they stand in must-fail/, and nothing else does.
stands=$work/stands
mkdir "$stands"
cp crates.txt "$stands"
[ ! -f HANDLES ] || cp HANDLES "$stands"
for folder in crates/*/; do
    mkdir -p "$stands/$folder"
    for part in src specs proofs; do [ ! -d "$folder$part" ] || cp -R "$folder$part" "$stands/$folder"; done
done
for crate in "$@"; do cp -R "crates/$crate/wrong" "$stands/crates/$crate/must-fail"; done
cd "$stands"

# count WORDS: of how many wrong programs rt says so
count() {
    grep -c "$1" "$work/lines" || true
}

: >"$work/lines"
tried=0
for crate in "$@"; do
    set -- "crates/$crate/must-fail"/*.edit
    tried=$((tried + $#))
    # The crate is proved as it stands before, so that a refusal is the wrong program's.
    (cd "crates/$crate" && rt check) >"$work/said" 2>&1 || { cat "$work/said"; echo "wrong: $crate is not proved as it stands"; exit 1; }
    # rt ends with 1 where one is not refused, which is counted below.
    rt must-fail $anew "$crate" >"$work/said" 2>&1 || true
    sed -n 's/^rt: must-fail /wrong: /p' "$work/said" | tee -a "$work/lines"
    # What else it says explains a line, or is all there is.
    grep -v '^rt: must-fail ' "$work/said" || true
done

# A refusal only because a proof names what is gone says nothing of a contract, and does not count.
refused=$(count ': refused, as it must be')
nameless=$(count ': refused, as it must be (only because a proof')
limited=$(count ': refused, as it must be (only by a limit')
echo "wrong: $((refused - nameless)) of $tried wrong programs refused for a fact ($limited of them by a limit of the prover);" \
    "$nameless for a missing name, $(count ': NOT REFUSED') not refused, $(count ': BAD EDIT') bad, $(count ': NOT TRIED') not tried"
[ "$((refused - nameless))" -eq "$tried" ] && [ "$tried" -gt 0 ]
