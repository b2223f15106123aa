#!/bin/sh
# tests/lyre.sh: holds ./lyre to its help, in which each command has an example that works; to one line and a status for what cannot
# be done; to what `card` prints and says of every refusal; to what `tray` prints and what it takes for no tray; and to calling rt where
# a program may be out of date, and only there.
set -eu
cd "$(dirname "$0")/.."
work=$(mktemp -d)
trap 'rm -rf "$work"' EXIT

fail() {
    echo "lyre: $*"
    exit 1
}

# ends STATUS COMMAND..: what the command prints and says is left in $work
ends() {
    wanted=$1
    shift
    status=0
    "$@" >"$work/printed" 2>"$work/said" || status=$?
    [ "$status" -eq "$wanted" ] || { cat "$work/said"; fail "$*: status $status, not $wanted"; }
}

# refused STATUS WORDS ARGUMENT..: ./lyre prints nothing and says one line, which has the words
refused() {
    wanted=$1 words=$2
    shift 2
    ends "$wanted" ./lyre "$@"
    [ ! -s "$work/printed" ] && [ "$(wc -l <"$work/said")" -eq 1 ] && grep -qF -- "$words" "$work/said" ||
        { cat "$work/printed" "$work/said"; fail "./lyre $*: not one line that has: $words"; }
}

# same ARGUMENT..: ./look prints, says and ends as ./lyre look does
same() {
    status=0
    ./look "$@" >"$work/look" 2>&1 <examples/setting-a.bin || status=$?
    ends "$status" ./lyre look "$@" <examples/setting-a.bin
    cat "$work/printed" "$work/said" | diff - "$work/look" || fail "./look $* (>) is not ./lyre look $* (<)"
}

ends 2 ./lyre
[ ! -s "$work/printed" ] || fail './lyre alone prints something'
mv "$work/said" "$work/help"
ends 0 ./lyre help
diff "$work/help" "$work/printed" || fail './lyre alone (<) does not say what ./lyre help prints (>)'
sed -n '/^case/,/^esac/s/^\([a-z-]*\)).*/\1/p' lyre >"$work/commands"
[ -s "$work/commands" ] || fail 'no command was found'
while read -r command; do
    grep -Eq "^  $command( |\$)" "$work/help" || fail "help does not name $command"
    example=$(grep -E "^ +\./lyre $command( |\$)" "$work/help") || fail "help has no example of $command"
    ends 0 $example </dev/null
done <"$work/commands"

refused 2 "'nothing'" nothing
refused 2 './lyre help' nothing
refused 2 'usage: ./lyre help' help look
refused 2 'usage: ./lyre look [FILE]' look one two
refused 1 "$work/missing: " look "$work/missing"
refused 1 "$work: " look "$work"
refused 1 'standard input: is closed' look <&-
refused 2 'usage: ./lyre to-hex [FILE]' to-hex one two
refused 1 'standard input: is closed' to-hex <&-
refused 1 'lyre to-hex: the image is not 41 to 4096 bytes long' to-hex </dev/null
refused 2 'usage: ./lyre from-hex N [FILE]' from-hex
refused 2 'usage: ./lyre from-hex N [FILE]' from-hex 12x
refused 1 'standard input: is closed' from-hex 129 <&-
refused 1 'lyre from-hex: line 0: the text ends' from-hex 129 </dev/null
refused 2 'usage: ./lyre card CARD CHIP' card examples/card.txt
refused 1 "$work/missing: cannot be opened" card "$work/missing" examples/card.bin
refused 1 "$work/missing: cannot be opened" card examples/card.txt "$work/missing"
refused 1 "$work: is a folder" card examples/card.txt "$work"
head -c 65536 /dev/zero >"$work/long"
refused 1 'lyre card: card: 65536 bytes or more' card "$work/long" examples/card.bin
refused 2 'usage: ./lyre tray [FILE]' tray one two
refused 1 "$work/missing: cannot be opened" tray "$work/missing"
refused 1 "$work: is a folder" tray "$work"
refused 1 'standard input: is closed' tray <&-
same
same examples/setting-a.bin
same "$work/missing"
same one two

# What a command prints is lost where the disk is full or standard output is closed, and it must say so.
ends 1 sh -c './lyre to-hex examples/setting-a.bin >&-'
grep -qx 'lyre to-hex: standard output: is closed' "$work/said" || fail 'to-hex does not say that standard output is closed'
ends 1 sh -c './lyre to-hex examples/setting-a.bin >/dev/full'
grep -qx 'lyre to-hex: the text cannot be written' "$work/said" || fail 'to-hex does not say that its text is lost'
ends 1 sh -c './lyre from-hex 129 examples/hex/objcopy.hex >/dev/full'
grep -qx 'lyre from-hex: the image cannot be written' "$work/said" || fail 'from-hex does not say that its image is lost'
ends 1 sh -c './lyre tray examples/tray.bin >&-'
grep -qx 'lyre tray: standard output: is closed' "$work/said" || fail 'tray does not say that standard output is closed'
ends 1 sh -c './lyre tray examples/tray.bin >/dev/full'
grep -qx 'lyre tray: the lines cannot be written' "$work/said" || fail 'tray does not say that its lines are lost'

# answers STATUS LINES WORDS CARD CHIP: ./lyre card prints five lines, which stand here with spaces between them, and says the words, one
# line or more, or nothing
answers() {
    wanted=$1 lines=$2 words=$3
    shift 3
    ends "$wanted" ./lyre card "$@"
    [ "$(tr '\n' ' ' <"$work/printed")" = "$lines " ] && [ "$(cat "$work/said")" = "$words" ] ||
        { cat "$work/printed" "$work/said"; fail "./lyre card $*: not $lines, and in words: $words"; }
}

# put FROM TO: the card of the examples with a text put for another, a line feed written as \n
put() {
    sed "s/$1/$2/" examples/card.txt >"$work/card"
}

none='used=0 left=0 time=0'
answers 0 'read=0 code=0 used=13 left=4987 time=330' '' examples/card.txt examples/card.bin
put allowed=5000 allowed=10
answers 0 'read=0 code=0 used=13 left=-3 time=330' '' "$work/card" examples/card.bin
put allowed=5000 allowed=0
answers 1 "read=0 code=1 $none" 'lyre card: card: the allowance is not 1 to 1000000' "$work/card" examples/card.bin
put fitted=100 fitted=114
answers 1 "read=0 code=2 $none" 'lyre card: card: the count is below the one when fitted' "$work/card" examples/card.bin
put turns=3 turns=4
answers 1 "read=0 code=3 $none" 'lyre card: card: the runs do not add up to the turns used' "$work/card" examples/card.bin
{ printf 'fitted=100\nallowed=5000\nruns=65\n'; for run in $(seq 65); do printf 'speed=45\nturns=0\n'; done; } >"$work/card"
answers 1 "read=0 code=4 $none" 'lyre card: card: more than 64 runs' "$work/card" examples/card.bin
put fitted=100 'fitted=0100'
answers 1 "read=0 code=5 $none" 'lyre card: card: the text is not in form' "$work/card" examples/card.bin
answers 1 "read=0 code=2 $none" 'lyre card: card: the count is below the one when fitted' examples/card.txt examples/setting-a.bin
answers 0 'read=0 code=0 used=13 left=4987 time=330' '' examples/card.txt /dev/stdin <examples/card.bin

# chip WORDS READ BYTE VALUE: the chip of the examples with a byte put for another is refused so
chip() {
    cp examples/card.bin "$work/chip"
    printf "$4" | dd of="$work/chip" bs=1 seek="$3" conv=notrunc 2>"$work/dd"
    answers 1 "read=$2 code=0 $none" "lyre card: chip: $1" examples/card.txt "$work/chip"
}

chip 'no mark: never opened, or damaged' 3 1 '\000'
chip 'the map is not sound' 4 3 '\001'
chip 'the copies disagree' 6 128 '\200'
cp "$work/chip" "$work/lost"
printf '\377' | dd of="$work/lost" bs=1 seek=128 conv=notrunc 2>"$work/dd"
printf '\377' | dd of="$work/lost" bs=1 seek=125 conv=notrunc 2>"$work/dd"
answers 1 "read=5 code=0 $none" 'lyre card: chip: a nibble is lost in both copies' examples/card.txt "$work/lost"
head -c 128 examples/card.bin >"$work/chip"
answers 1 "read=2 code=0 $none" 'lyre card: chip: too short for setting A' examples/card.txt "$work/chip"
put allowed=5000 allowed=0
answers 1 "read=1 code=1 $none" 'lyre card: chip: not 41 to 4096 bytes long
lyre card: card: the allowance is not 1 to 1000000' "$work/card" /dev/null
ends 1 sh -c './lyre card examples/card.txt examples/card.bin >/dev/full'
grep -qx 'lyre card: the lines cannot be written' "$work/said" || fail 'card does not say that its lines are lost'

# lines ARGUMENT..: ./lyre tray prints $work/lines and says nothing
lines() {
    ends 0 ./lyre tray "$@"
    diff "$work/lines" "$work/printed" && [ ! -s "$work/said" ] || fail "./lyre tray $*: prints something else (>) than it should (<)"
}

# no_tray: $work/tray is refused
no_tray() {
    refused 1 'lyre tray: not 1 to 64 images of 129 bytes each' tray "$work/tray"
}

# chips N: $work/tray has the chip of the card N times, and $work/lines what is printed of it
chips() {
    for number in $(seq "$1"); do
        cat examples/card.bin
        echo "number=$number code=0 count=113" >&3
    done >"$work/tray" 3>"$work/lines"
}

printf 'number=1 code=0 count=3\nnumber=2 code=3 count=0\nnumber=3 code=0 count=113\n' >"$work/lines"
lines examples/tray.bin
lines <examples/tray.bin
{ head -c 100 examples/tray.bin; sleep 0.2; tail -c +101 examples/tray.bin; } | lines
# The tray that the crate is run on: a line has what ./look prints of that image alone.
for number in 1 2 3 4 5 6 7; do
    dd if=crates/tray/stdin bs=129 skip=$((number - 1)) count=1 2>"$work/dd" | ./look |
        sed -n "1s/^/number=$number /p; 2p" | paste -s -d ' ' -
done >"$work/lines"
lines crates/tray/stdin
chips 1
lines "$work/tray"
chips 64
lines "$work/tray"
printf x >>"$work/tray"
no_tray
chips 65
no_tray
head -c 386 examples/tray.bin >"$work/tray"
no_tray
: >"$work/tray"
no_tray

# When rt is called, in a house and with a kit that are made up: there rt leaves a program, as long as the kit has it, and ends as the
# file `ends` says.
kit=$work/kit
house=$work/house
mkdir -p "$kit/bin" "$house/crates/look/src" "$house/crates/look/out"
printf '#!/bin/sh\nshift 3\nexec "$@"\n' >"$kit/bin/qemu-x86_64"
printf '#!/bin/sh\necho looked\n' >"$kit/look"
cat >"$kit/bin/rt" <<END
#!/bin/sh
: >$kit/called
[ ! -x $kit/look ] || cp $kit/look out
ends=\$(cat $kit/ends)
[ \$ends -ne 0 ] || printf 'crate look: modules\nlogic=proved functions=1\nrt: running out/look; to give it other input\n' >&2
exit \$ends
END
chmod +x "$kit/bin/qemu-x86_64" "$kit/look" "$kit/bin/rt"
echo 'a kit' >"$kit/KIT-ID"
echo 'look:' >"$house/crates.txt"
cp lyre "$house"

# built STATUS CALLED WHEN: a look in that house, for which rt is called, yes or no
built() {
    rm -f "$kit/called"
    ends "$1" env RATTLE_HOME="$kit" PATH="$kit/bin:$PATH" "$house/lyre" look </dev/null
    called=no
    [ ! -e "$kit/called" ] || called=yes
    [ "$called" = "$2" ] || fail "rt was called: $called, not $2, $3"
    [ "$1" -ne 0 ] || [ "$(cat "$work/printed")" = looked ] || fail "the program did not run $3"
    [ "$1$2" != 0yes ] || grep -qx 'lyre: look is proved' "$work/said" || fail "it does not say what is proved $3"
}

echo 1 >"$kit/ends"
built 1 yes 'at first'
built 1 yes 'after a proof that failed'
echo 0 >"$kit/ends"
built 0 yes 'after two proofs that failed'
built 0 no 'after a good proof'
echo 'another kit' >"$kit/KIT-ID"
built 0 yes 'with another kit'
built 0 no 'with that kit again'
touch -d '1 hour' "$house/crates" "$house/crates/look" "$house/crates/look/out"
built 0 no 'where only rt wrote something'
touch -d '1 hour' "$house/crates/look/src"
built 0 yes 'after a change'
rm "$kit/look" "$house/crates/look/out/look"
built 1 yes 'where the program is gone'
[ "$(tail -n 1 "$work/said")" = 'lyre look: the program cannot be built' ] || fail 'it does not say that the program cannot be built'
echo 'lyre: does what its help says'
