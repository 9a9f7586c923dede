#!/bin/bash
# The trail program on images, whole, cut and damaged: what it writes is held to what document 02 says of tickets 3 and 7, worked out by hand.
# trail_program.sh [PROGRAM]: prints each case that differs, and a last line 'N passed, M failed'.
set -uo pipefail
cd "$(dirname "$0")/.."
program=${1:-crates/trail/out/trail}
[ -x "$program" ] || { echo "no program $program: run 'bash tools/proved trail' first"; exit 2; }
room=$(mktemp -d)
trap 'rm -rf "$room"' EXIT
passed=0 failed=0

# held NAME: what the program writes for $room/in, on standard error too, has to be $room/want
held() {
    "$program" <"$room/in" >"$room/wrote" 2>&1
    same "$1"
}

same() {
    if cmp -s "$room/want" "$room/wrote"; then
        passed=$((passed + 1))
    else
        failed=$((failed + 1))
        echo "DIFFERS: $1"
        diff --text "$room/want" "$room/wrote" | head -n 6 | cut -c1-200
    fi
}

# image EDITION SAVE TURN RECORD..: the image of these records, each TIME:SEQUENCE:PREFIX:TEXT:DICT:CALLER with TEXT and DICT in hex; in edition 0 headings have
# 24 bytes and no caller, in others 32. A turn damages it: 'PLACE=HEX' puts bytes there, 'PLACE+HEX' the same and the block's check is made anew, 'LENGTH.' cuts
# it, '-' is none.
image() {
    python3 -c '
import struct, sys, zlib
edition, save, turn = int(sys.argv[1]), int(sys.argv[2]), sys.argv[3]
payload = b""
for r in sys.argv[4:]:
    time, sequence, prefix, text, dictionary, caller = r.split(":")
    text, dictionary = bytes.fromhex(text), bytes.fromhex(dictionary)
    payload += struct.pack("<QQHHHBB", int(time), int(sequence), len(text), len(dictionary), int(prefix), 45, 0)
    payload += (struct.pack("<II", int(caller), 0) if edition else b"") + text + dictionary
pieces = [payload[i:i + 496] for i in range(0, len(payload), 496)] or [b""]
blocks = [struct.pack("<IHHI496s", n, len(p), edition, save, p) for n, p in enumerate(pieces)]
file = bytearray(b"".join(b + struct.pack("<I", zlib.crc32(b)) for b in blocks))
for mark in "=+":
    if mark in turn:
        place, put = int(turn.split(mark)[0]), bytes.fromhex(turn.split(mark)[1])
        file[place:place + len(put)] = put
        at = place // 512 * 512
        if mark == "+":
            file[at + 508:at + 512] = struct.pack("<I", zlib.crc32(file[at:at + 508]))
if turn.endswith("."):
    file = file[:int(turn[:-1])]
sys.stdout.buffer.write(file)' "$@"
}

# case_of NAME WANT EDITION SAVE TURN RECORD..: WANT as printf has it, where \\ is one '\'
case_of() {
    local name=$1
    printf "$2" >"$room/want"
    shift 2
    image "$@" >"$room/in"
    held "$name, edition $1"
}

# many COUNT BYTE: that byte so often
many() { head -c "$1" /dev/zero | tr '\0' "$2"; }

# two NUMBER: its two bytes in hex, the lower one first
two() { printf '%02x%02x' $(($1 % 256)) $(($1 / 256)); }

# ---- the samples, whole and in pieces
cp samples/trail.expected "$room/want"
cp samples/trail.image "$room/in"
held 'samples/trail.image'
{ head -c 700 samples/trail.image; sleep 0.1; tail -c +701 samples/trail.image | head -c 5; sleep 0.1; tail -c +706 samples/trail.image; } | "$program" >"$room/wrote" 2>&1
same 'samples/trail.image in pieces'
{ cat samples/trail.image; many 1000 x; } >"$room/in"
held 'old bytes behind an image whose last block is not full'
{ cat samples/trail.image; many 20000000 x; } >"$room/in"
held 'twenty million of them'
{ cat samples/trail.image; cat samples/trail-cut.image; } >"$room/in"
held 'another image behind it'
cp samples/trail-callers.expected "$room/want"
cp samples/trail-callers.image "$room/in"
held 'samples/trail-callers.image'
cp samples/trail-cut.expected "$room/want"
cp samples/trail-cut.image "$room/in"
held 'samples/trail-cut.image'
{ cat samples/trail-cut.image; many 5000000 x; } >"$room/in"
held 'five million bytes behind it'

# ---- lengths: fewer than 512 bytes left are the end, and without a block there is no edition
: >"$room/in"
printf 'end: 0 records\n' >"$room/want"
held 'empty input'
many 511 x >"$room/in"
held '511 bytes'
printf 'stop at block 0: wrong number (0 records before it)\n' >"$room/want"
many 512 x >"$room/in"
held '512 bytes that are no block'
many 513 x >"$room/in"
held '513 bytes that are no block'

for edition in 0 1; do
    other=$((1 - edition))
    heading=$((24 + 8 * edition))
    # An older trail doesn't say who wrote its records.
    if [ "$edition" = 0 ]; then one=0 last=0; else one=1 last=4294967295; fi
    goal="134,7,1,-,caller=$one;1-0\n"
    lines="${goal}134,8,3,-,caller=$last;0-0\n k=v\n"
    records=(1000:7:134:312d30::1 3999:8:134:302d30:6b3d76:4294967295)
    case_of 'the image of an empty log' "end: 0 records, edition $edition\n" $edition 7 -
    case_of 'one block' "${lines}end: 2 records, edition $edition\n" $edition 7 - "${records[@]}"
    case_of 'one block less a byte' 'end: 0 records\n' $edition 7 511. "${records[@]}"
    { image $edition 7 - "${records[@]}"; printf x; } >"$room/in"
    printf "${lines}end: 2 records, edition $edition\n" >"$room/want"
    held "one block and a byte, edition $edition"
    case_of 'one record' "0,18446744073709551615,18446744073709551,-,caller=0;\nend: 1 record, edition $edition\n" $edition 4294967295 - \
        18446744073709551615:18446744073709551615:0:::0

    # ---- a full block: its heading, a text and 3 bytes
    length=$((496 - heading - 3))
    full=1000:7:134:$(many $((2 * length)) 6):6b3d76:1
    line="134,7,1,-,caller=$one;$(many $length f)\n k=v\n"
    case_of 'a full block and the end of the file' "${line}end: 1 record, edition $edition\n" $edition 7 - "$full"
    { image $edition 7 - "$full"; many 511 x; } >"$room/in"
    held "a full block and 511 bytes, edition $edition"
    { image $edition 7 - "$full"; many 512 x; } >"$room/in"
    printf "${line}stop at block 1: wrong number (1 record before it)\n" >"$room/want"
    held "a full block and 512 bytes, edition $edition"
    both=("$full" 2000:8:134:61::4294967295)
    case_of 'a count of 0 behind a full block' "${line}end: 1 record, edition $edition\n" $edition 7 516+0000 "${both[@]}"

    # ---- what is wrong with a block, in its order: number, save number, edition, count, check
    case_of 'two blocks' "${line}134,8,2,-,caller=$last;a\nend: 2 records, edition $edition\n" $edition 7 - "${both[@]}"
    case_of 'a number' "${line}stop at block 1: wrong number (1 record before it)\n" $edition 7 512+02000000ffff020006 "${both[@]}"
    case_of 'a save number' "${line}stop at block 1: wrong save number (1 record before it)\n" $edition 7 516+f101020006 "${both[@]}"
    for word in 0${other}00 0200 ffff 0${edition}01; do
        case_of "edition bytes $word and a count" "${line}stop at block 1: wrong edition (1 record before it)\n" $edition 7 516+f101$word "${both[@]}"
        case_of "edition bytes $word" "${line}stop at block 1: wrong edition (1 record before it)\n" $edition 7 518+$word "${both[@]}"
        case_of "edition bytes $word and a check" "${line}stop at block 1: wrong edition (1 record before it)\n" $edition 7 518=$word "${both[@]}"
    done
    case_of 'a count' "${line}stop at block 1: wrong count (1 record before it)\n" $edition 7 516=f101 "${both[@]}"
    case_of 'the largest count' "${line}stop at block 1: wrong count (1 record before it)\n" $edition 7 516+ffff "${both[@]}"
    case_of 'a check' "${line}stop at block 1: wrong check (1 record before it)\n" $edition 7 1000=ff "${both[@]}"
    case_of 'a check of the first block' 'stop at block 0: wrong check (0 records before it)\n' $edition 7 100=00 "${both[@]}"
    case_of 'the first block, an edition that there is none of' 'stop at block 0: wrong edition (0 records before it)\n' $edition 7 6+0200 "${both[@]}"
    case_of 'the first block, the largest edition and a count' 'stop at block 0: wrong edition (0 records before it)\n' $edition 7 4=f101ffff "${both[@]}"
    case_of 'the first block, a number and an edition' 'stop at block 0: wrong number (0 records before it)\n' $edition 7 0+01000000f0010200 "${both[@]}"
    case_of 'the first block, a count' 'stop at block 0: wrong count (0 records before it)\n' $edition 7 4+f101 "${both[@]}"
    # The first block's own edition is right where it is one of the two, and a check that was made for the other is not.
    case_of 'the other edition under the old check' 'stop at block 0: wrong check (0 records before it)\n' $edition 7 6=0${other}00 "${both[@]}"

    # ---- what is wrong with a record: two of them have twice the heading and 9 bytes
    case_of 'a record without its last bytes' "${goal}stop at record 1: unfinished\n" $edition 7 "4+$(two $((2 * heading + 6)))" "${records[@]}"
    case_of 'a heading without its last byte' "${goal}stop at record 1: unfinished\n" $edition 7 "4+$(two $((2 * heading + 2)))" "${records[@]}"
    case_of 'a heading and no more' "${goal}stop at record 1: unfinished\n" $edition 7 "4+$(two $((2 * heading + 3)))" "${records[@]}"
    case_of 'a number that does not follow' "${goal}stop at record 1: it breaks the heading rules\n" $edition 7 - "${records[0]}" 1000:9:134:::1
    case_of 'a prefix of 2,048' 'stop at record 0: it breaks the heading rules\n' $edition 7 - 1000:7:2048:::1
    case_of 'a fragment' "${lines/,-,/,c,}end: 2 records, edition $edition\n" $edition 7 34+63 "${records[@]}"
    case_of 'a flag that no record has' 'stop at record 0: it breaks the heading rules\n' $edition 7 34+2b "${records[@]}"
    case_of 'the zero behind the flag' 'stop at record 0: it breaks the heading rules\n' $edition 7 35+01 "${records[@]}"
    case_of 'the largest prefix' "2047,7,1,-,caller=$one;\nend: 1 record, edition $edition\n" $edition 7 - 1000:7:2047:::1
    case_of 'a dictionary without =' "${goal}stop at record 1: it breaks the heading rules\n" $edition 7 - "${records[0]}" 1000:8:134:61:6b:1
    case_of 'a text of 961 bytes' 'stop at record 0: it breaks the heading rules\n' $edition 7 - "1000:7:134:$(many 1922 6)::1"

    # ---- lines
    case_of 'bytes that are escaped' "134,7,0,-,caller=$one;\\\\x00\\\\x0a\\\\x1f ~\\\\x5c\\\\x7f\\\\xff\n a=\\\\x0a\n b==\nend: 1 record, edition $edition\n" \
        $edition 7 - 999:7:134:000a1f207e5c7fff:613d0a00623d3d:1
    case_of 'the longest line' \
        "2047,18446744073709551615,18446744073709551,-,caller=$last;$(many 960 @ | sed 's/@/\\\\x00/g')\nend: 1 record, edition $edition\n" $edition 7 - \
        "18446744073709551615:18446744073709551615:2047:$(many 1920 0)::4294967295"
    case_of 'the most entries' "134,7,0,-,caller=$one;\n$(many 320 @ | sed 's/@/ a=\\n/g')end: 1 record, edition $edition\n" $edition 7 - \
        "0:7:134::$(many 319 @ | sed 's/@/613d00/g')613d:1"

    # ---- more blocks than any image of ours, and more than are held
    python3 -c '
import struct, sys, zlib
edition = int(sys.argv[2])
who = struct.pack("<II", 1, 0) if edition else b""
for n in range(int(sys.argv[1])):
    text = b"x" * (100 - len(who))
    records = b"".join(struct.pack("<QQHHHBB", 0, 4 * n + k, len(text), 0, 134, 45, 0) + who + text for k in range(4))
    block = struct.pack("<IHHI", n, 496, edition, 7) + records
    sys.stdout.buffer.write(block + struct.pack("<I", zlib.crc32(block)))' 8194 $edition >"$room/long"
    many $((100 - 8 * edition)) x >"$room/text"
    seq 0 32775 | sed "s/.*/134,&,0,-,caller=$one;$(cat "$room/text")/" >"$room/lines"
    head -c $((512 * 8192)) "$room/long" >"$room/in"
    { head -n 32768 "$room/lines"; echo "end: 32768 records, edition $edition"; } >"$room/want"
    held "8,192 blocks, edition $edition"
    { cat "$room/in"; many 511 x; } >"$room/more" && mv "$room/more" "$room/in"
    held "8,192 blocks and 511 bytes, edition $edition"
    { head -n 32768 "$room/lines"; echo 'stop at block 8192: the input goes on, and this program reads no further (32768 records before it)'; } >"$room/want"
    head -c $((512 * 8193)) "$room/long" >"$room/in"
    held "8,193 blocks, edition $edition"
    cp "$room/long" "$room/in"
    held "8,194 blocks, edition $edition"
done

# ---- callers, and the four zeros behind them
for caller in 0 1 4294967295; do
    case_of "caller $caller" "134,7,1,-,caller=$caller;a\nend: 1 record, edition 1\n" 1 7 - 1000:7:134:61::$caller
done
for place in 40 41 42 43; do
    case_of "a byte at $place" 'stop at record 0: it breaks the heading rules\n' 1 7 $place+01 "${records[@]}"
done
case_of 'eight bytes of text where they are' '134,7,1,-,caller=0;abcdefgh\nend: 1 record, edition 0\n' 0 7 - 1000:7:134:6162636465666768::1

# ---- headings of one edition in a block of the other
# Read as 24 bytes, the text is the caller's first byte, and the zeros behind it are no heading.
case_of 'edition 0 over headings of 32 bytes' '134,7,1,-,caller=0;\\x05\nstop at record 1: unfinished\n' 1 7 6+0000 1000:7:134:61::5
# 25 bytes hold no heading of 32.
case_of 'edition 1 over headings of 24 bytes' 'stop at record 0: unfinished\n' 0 7 6+0100 1000:7:134:61::5
# 32 of them do: 'abcd' is the caller, the zeros are where they have to be, and the text would be behind them.
case_of 'edition 1 over a text of eight bytes' 'stop at record 0: unfinished\n' 0 7 6+0100 1000:7:134:6162636400000000::5
case_of 'edition 1 over a text of other bytes' 'stop at record 0: it breaks the heading rules\n' 0 7 6+0100 1000:7:134:6162636465666768::5

# ---- a record of 500 bytes that goes on in a block of another edition
for edition in 0 1; do
    long=1000:7:134:$(many $((2 * (476 - 8 * edition))) 6)::1
    for word in 0$((1 - edition))00 0200; do
        case_of "a record that goes on in edition bytes $word" 'stop at block 1: wrong edition (0 records before it)\n' $edition 7 518+$word "$long"
    done
done
# ---- one edition behind the other: a full block, and what an image of the other edition has behind its own
for edition in 0 1; do
    other=$((1 - edition))
    full=1000:7:134:$(many $((2 * (472 - 8 * edition))) 6)::1
    under=1000:7:134:$(many $((2 * (472 - 8 * other))) 6)::1
    line="134,7,1,-,caller=$edition;$(many $((472 - 8 * edition)) f)\n"
    for save in 7 8; do
        { image $edition 7 - "$full" | head -c 512; image $other $save - "$under" 2000:8:134:61::1 | tail -c 512; } >"$room/in"
        if [ "$save" = 7 ]; then reason='wrong edition'; else reason='wrong save number'; fi
        printf "${line}stop at block 1: $reason (1 record before it)\n" >"$room/want"
        held "edition $edition cut over edition $other of save $save"
    done
done

# ---- what cannot be read or written
if [ -d / ]; then
    printf 'end: 0 records\ntrail: standard input could not be read behind byte 0\n' >"$room/want"
    "$program" </ >"$room/wrote" 2>&1
    same 'a folder for input'
fi
if [ -c /dev/full ]; then
    printf 'trail: standard output could not be written\n' >"$room/want"
    "$program" <samples/trail.image 2>"$room/wrote" >/dev/full
    same 'no room for the output'
fi

echo "trail: $passed passed, $failed failed"
[ "$failed" -eq 0 ]
