#!/bin/sh
# tests/edits.sh: each `old:` text of every edit in a must-fail/ or wrong/ folder stands in its file once, as the file is now. rt and
# tests/wrong.sh say so too, but only when they come to the edit, after minutes of proving.
set -eu
cd "$(dirname "$0")/.."
awk '
    function bad(edit, why) { print "edits: " edit ": " why; failed = 1 }

    # Many edits are of one file, so it is read once.
    function read_in(path,    line, more) {
        if (path in text) return
        text[path] = ""
        while ((more = (getline line <path)) > 0) text[path] = text[path] line "\n"
        missing[path] = more < 0
        close(path)
    }

    function times(old, rest,    at, found) {
        while (found < 2 && (at = index(rest, old))) { found++; rest = substr(rest, at + length(old)) }
        return found + 0
    }

    FNR == 1 { path = old = ""; crate = FILENAME; sub(/[^\/]*\/[^\/]*$/, "", crate) }
    sub(/^file: /, "") { path = crate $0; read_in(path); if (missing[path]) bad(FILENAME, "there is no file " path); next }
    sub(/^old: /, "") { old = $0; next }
    /^new:/ {
        pairs[FILENAME]++
        if (old == "" || path == "") bad(FILENAME, "a new text without its file or its old text")
        else if (!missing[path] && (found = times(old, text[path])) != 1)
            bad(FILENAME, (found ? "more than once" : "not") " in " path ": " old)
        old = ""
    }
    END {
        for (i = 1; i < ARGC; i++) if (!pairs[ARGV[i]]) bad(ARGV[i], "has no old and new text")
        if (failed) exit 1
        print "edits: the " ARGC - 1 " wrong programs fit the source"
    }' crates/*/must-fail/*.edit crates/*/wrong/*.edit
