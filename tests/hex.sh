#!/bin/sh
# tests/hex.sh: holds ./lyre to-hex and ./lyre from-hex to document 02 (P2), and to three tools that write and read Intel HEX: srec_cat,
# objcopy and Python's intelhex. Prints what differs; exits 1 if anything did.
set -eu
. "$(dirname "$0")/../second/machine.sh"
cd "$root"
kept=examples/hex
example=examples/setting-a.bin
failed=0

# Debian's intelhex is for Debian's own Python, which need not be the first on the path.
missing=''
have srec_cat || missing="$missing srecord"
have objcopy || missing="$missing binutils"
/usr/bin/python3 -c 'import intelhex' 2>/dev/null || missing="$missing python3-intelhex"
[ -z "$missing" ] || install_packages $missing

differs() {
    printf 'hex: %s\n' "$*"
    failed=1
}

# same WHAT GOT WANTED: the two files hold the same bytes
same() {
    why=$(cmp -- "$2" "$3" 2>&1) || differs "$1: $why"
}

# reads TEXT IMAGE: ./lyre from-hex makes the image of the text
reads() {
    ./lyre from-hex "$(wc -c <"$2")" "$1" >"$work/image" || differs "./lyre from-hex $1: status $?"
    same "./lyre from-hex $1" "$work/image" "$2"
}

# refused WHAT STATUS WORDS ARGUMENT..: ./lyre prints nothing and says one line, which has the words; a * in them is anything between
refused() {
    what=$1 wanted=$2 words=$3
    shift 3
    status=0
    ./lyre "$@" >"$work/printed" 2>"$work/said" || status=$?
    said=$(cat "$work/said")
    case "$status, $(wc -c <"$work/printed") bytes, $(wc -l <"$work/said") line: $said" in
    "$wanted, 0 bytes, 1 line: "*$words*) ;;
    *) differs "$what: ./lyre $*: status $status, $(wc -c <"$work/printed") bytes printed, said '$said'; wanted $wanted, none, '$words'" ;;
    esac
}

# unfit WHAT ARGUMENT..: refused for a length that no image has, for which no line is to blame
unfit() {
    what=$1
    shift
    refused "$what" 1 '41 to 4096' "$@"
    case $said in *'line '[0-9]*) differs "$what: ./lyre $*: said '$said'; wanted no line" ;; esac
}

# Images of many lengths, with random bytes that are the same in every run and with FF alone, and what intelhex makes of each.
cp $example "$work/example.bin"
/usr/bin/python3 - "$work" <<'END'
import random, sys
from intelhex import IntelHex

random.seed(2)
folder = sys.argv[1] + "/"
images = {"example": open(folder + "example.bin", "rb").read()}
for length in 41, 64, 129, 255, 256, 1000, 4096:
    images["random-%d" % length] = bytes(random.randrange(256) for _ in range(length))
    images["blank-%d" % length] = b"\xFF" * length
for name, image in images.items():
    open(folder + name + ".bin", "wb").write(image)
    text = IntelHex()
    text.frombytes(image)
    text.write_hex_file(folder + name + ".intelhex")
    text.write_hex_file(folder + name + ".intelhex-1", eolstyle="CRLF", byte_count=1)
END

# Each tool's text against ours, each tool's reading of ours, and our reading of each tool's.
for image in "$work"/*.bin; do
    name=${image%.bin}
    ./lyre to-hex "$image" >"$name.hex" || differs "./lyre to-hex $image: status $?"
    srec_cat "$image" -binary -o "$name.srec_cat" -intel -address-length=2 -obs=16
    same 'what srec_cat writes' "$name.hex" "$name.srec_cat"
    same 'what intelhex writes' "$name.hex" "$name.intelhex"
    srec_cat "$name.hex" -intel -o "$name.srec_cat-read" -binary
    same 'what srec_cat reads' "$name.srec_cat-read" "$image"
    objcopy -I ihex -O binary "$name.hex" "$name.objcopy-read"
    same 'what objcopy reads' "$name.objcopy-read" "$image"
    reads "$name.hex" "$image"
    srec_cat "$image" -binary -o "$name.srec_cat-255" -intel -address-length=2 -obs=255 -line-termination=crlf
    reads "$name.srec_cat-255" "$image"
    objcopy -I binary -O ihex "$image" "$name.objcopy"
    reads "$name.objcopy" "$image"
    reads "$name.intelhex-1" "$image"
done
/usr/bin/python3 - "$work"/*.hex <<'END'
import sys
from intelhex import IntelHex

for text in sys.argv[1:]:
    image = open(text[:-3] + "bin", "rb").read()
    if IntelHex(text).tobinstr() != image:
        sys.exit("hex: what intelhex reads: " + text)
END

# The kept texts, and whether the tools still make them. A default may be another in other versions of srec_cat, but for its first record.
mkdir "$work/made"
$kept/make "$work/made"
for text in $kept/*.hex; do
    made=$work/made/${text##*/}
    case $text in
    */refused-default.hex)
        refused 'a first record of type 04' 1 'line 1: *type' from-hex 129 $text
        refused 'a first record of type 04' 1 'line 1: *type' from-hex 129 "$made"
        continue
        ;;
    */refused-start.hex) refused 'an end record with an address' 1 'line 10: *form' from-hex 129 $text ;;
    *) reads $text $example ;;
    esac
    same "what $kept/make makes" "$made" $text
done

# the cures that the README names
srec_cat $kept/refused-default.hex -intel -o "$work/text" -intel -address-length=2
reads "$work/text" $example
srec_cat $kept/refused-start.hex -intel -o "$work/text" -intel -address-length=2 -disable=exec-start-address
reads "$work/text" $example
srec_cat $example -binary -offset 0x8000000 -o "$work/high" -intel
srec_cat "$work/high" -intel -offset -0x8000000 -o "$work/text" -intel -address-length=2
reads "$work/text" $example
srec_cat $example -binary -fill 0x55 129 256 -o "$work/long" -intel
srec_cat "$work/long" -intel -crop 0 129 -fill 0xFF 0 129 -o "$work/text" -intel -address-length=2
reads "$work/text" $example

# both cases and both line ends in one text
sed '1~2s/F/f/; 1~3s/$/\r/' $kept/srec_cat.hex >"$work/text"
reads "$work/text" $example

# standard input and pipes
./lyre to-hex <$example >"$work/text"
same 'an image on standard input' "$work/text" $kept/srec_cat.hex
cat $kept/lower.hex | ./lyre from-hex 129 | ./lyre to-hex >"$work/text"
same 'pipes' "$work/text" $kept/srec_cat.hex

# Faults, each an edit of a text of ten lines for 129 bytes, with the line that is to blame. The last five have two faults: the first line
# at fault counts, and within it the lower number.
while read -r line word edit; do
    sed "$edit" $kept/srec_cat.hex >"$work/text"
    refused "a text changed by sed '$edit'" 1 "line $line: *$word" from-hex 129 <"$work/text"
done <<'END'
3 form 3s/://
3 form 3s/:/ :/
3 form 3s/$/ /
3 form 3s/$/\r\r/
3 form 3s/80/8G/
3 form 3s/.$//
3 form 3s/..$//
3 form 3s/$/00/
3 form 3s/.*//
1 form 1s/^/:0000000000\n/
10 form 10s/.*/:0100000100FE/
10 form 10s/.*/:00000101FE/
11 form 10s/$/\n:00000001FF/
11 form 10s/$/\n/
3 checksum 3s/5D$/5C/
10 checksum 10s/FF$/FE/
1 type 1s/^/:020000040000FA\n/
10 type 10s/01FF/02FE/
9 past 9s/.*/:010081001965/
9 past 9s/.*/:0200800019194C/
9 past 9s/.*/:02FFFF001919CE/
3 twice 2p
9 twice 9s/.*/:02007F008019E6/
9 missing 10d
9 missing 5d
0 missing d
2 checksum 2s/C9$/C8/;3s/://
3 form 3s/5D$/5G/
1 checksum 1s/^/:020000040000FB\n/
1 type 1s/^/:02FFFF040000FC\n/
9 past 9s/.*/:03007F00801919CC/
END
head -c -1 $kept/srec_cat.hex >"$work/text"
refused 'no line end' 1 'line 10: *form' from-hex 129 "$work/text"
refused 'an image for a text' 1 'line 1: *form' from-hex 129 $example
refused 'a byte too many' 1 'line 9: *past' from-hex 128 $kept/srec_cat.hex
refused 'a byte too few' 1 'line 10: *missing' from-hex 130 $kept/srec_cat.hex

# Texts that are long. Records of one byte with CR LF make the longest that is good: 61453 bytes, of which the end record is 13.
image=$work/random-4096.bin
longest=$work/random-4096.intelhex-1
LC_ALL=C sort -r "$longest" >"$work/text"
reads "$work/text" "$image"
sed '$d' "$longest" >"$work/records"
refused 'the longest text without its end record' 1 'line 4096: *missing' from-hex 4096 "$work/records"
cat "$work/records" "$longest" >"$work/text"
refused 'records of 122893 bytes' 1 'line 4097: *twice' from-hex 4096 "$work/text"
cat "$work/records" "$work/random-4096.srec_cat-255" >"$work/text"
refused 'a long line behind the records' 1 'line 4097: *twice' from-hex 4096 "$work/text"
cat "$longest" "$longest" >"$work/text"
refused 'the longest text twice' 1 'line 4098: *form' from-hex 4096 "$work/text"
head -c 4000000 /dev/urandom >"$work/rubbish"
refused 'rubbish' 1 'line 1: *form' from-hex 4096 "$work/rubbish"
cat "$work/records" "$work/rubbish" >"$work/text"
refused 'rubbish behind the records' 1 'line 4097: *form' from-hex 4096 "$work/text"
{ printf ':'; head -c 4000000 /dev/zero | tr '\0' F; echo; } >"$work/text"
refused 'a line of four million digits' 1 'line 1: *form' from-hex 4096 "$work/text"

# Lengths. The last two are 129 where a number has 32 or 64 bits.
for length in 0 40 4097 4000000; do
    head -c $length "$work/rubbish" >"$work/text"
    unfit "$length bytes" to-hex "$work/text"
done
for length in 0 40 4097 4294967425 18446744073709551745; do unfit 'a length' from-hex $length $kept/srec_cat.hex; done
unfit 'a length before the text' from-hex 40 "$work/rubbish"

# arguments
refused 'two files' 2 usage: to-hex $example $example
refused 'two files' 2 usage: from-hex 129 $kept/srec_cat.hex $kept/srec_cat.hex
refused 'no length' 2 usage: from-hex
for length in '' -129 +129 0x81 129k 12.9 $kept/srec_cat.hex; do
    refused 'no plain decimal number' 2 usage: from-hex "$length" $kept/srec_cat.hex
done
refused 'a file for a length' 2 usage: from-hex $kept/srec_cat.hex
refused 'a missing file' 1 "$work/none: " to-hex "$work/none"
refused 'a missing file' 1 "$work/none: " from-hex 129 "$work/none"

[ $failed -ne 0 ] || echo 'hex: real tools and ours read each other'
exit $failed
