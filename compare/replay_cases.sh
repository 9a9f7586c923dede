#!/bin/bash
# The replay program beside the second program: scripts from fixed seeds, and inputs made by hand, compared byte for byte.
# replay_cases.sh [PROGRAM]: prints each case that differs with its first line that does, and what was compared.
set -uo pipefail
cd "$(dirname "$0")/.."
program=${1:-crates/replay/out/replay}
second=compare/target/release/compare
[ -x "$program" ] || { echo "no program $program: run 'bash tools/proved replay' first"; exit 2; }
(cd compare && cargo build --release --offline --quiet) || exit 2
room=$(mktemp -d)
trap 'rm -rf "$room"' EXIT
passed=0 failed=0 lines=0 messages=0

# held NAME: what the program writes for $room/in has to be $room/want
held() {
    "$program" <"$room/in" >"$room/wrote"
    if cmp -s "$room/want" "$room/wrote"; then
        passed=$((passed + 1))
        return
    fi
    failed=$((failed + 1))
    line=$(diff --text "$room/want" "$room/wrote" | sed -n '1s/[^0-9].*//p')
    echo "DIFFERS: $1, line $line"
    echo "  script: $(sed -n "${line}p" "$room/in" | cut -c1-200)"
    echo "  wanted: $(sed -n "${line}p" "$room/want" | cut -c1-200)"
    echo "  wrote:  $(sed -n "${line}p" "$room/wrote" | cut -c1-200)"
}

# case_of NAME INPUT WANT: both as printf has them. What is wanted was worked out by hand, and the second program has to say it too.
case_of() {
    printf "$2" >"$room/in"
    printf "$3" >"$room/want"
    hand "$1"
}

# hand NAME: $room/want was worked out by hand
hand() {
    if ! "$second" answer <"$room/in" | cmp -s - "$room/want"; then
        failed=$((failed + 1))
        echo "DIFFERS: $1, the second program from what was worked out by hand"
    fi
    held "$1"
}

# script SEED LINES [wide|trail|editions|console|lines|joiner], or script all console|levels|bytes|pieces|editions
script() {
    "$second" script "$@" >"$room/in"
    "$second" answer <"$room/in" >"$room/want"
    lines=$((lines + $(wc -l <"$room/in")))
    messages=$((messages + $(grep --text -c -E '^(deliver|line|join) ' "$room/in")))
    held "script $*"
}

# many COUNT BYTE: that byte so often
many() { head -c "$1" /dev/zero | tr '\0' "$2"; }

# ---- lines
case_of 'empty input' '' ''
case_of 'one newline' '\n' '?\n'
case_of 'no final newline' 'console 6 7\nconsole 7 7' 'yes\nno\n'
case_of 'words' ' console 6 7\nconsole 6 7 \nconsole  6 7\nconsole 6\nconsole 6 7 8\nCONSOLE 6 7\n' '?\n?\n?\n?\n?\n?\n'
case_of 'carriage return, zero byte, bytes that are no text' 'console 6 7\r\nconsole 6\0007\n\377\376\n' '?\n?\n?\n'
case_of 'numbers' 'console 006 007\nconsole -0 0\nconsole -1 -0\nconsole +6 7\nconsole - 7\nconsole 6x 7\n' 'yes\nno\nyes\n?\n?\n?\n'
case_of 'ends of i64' 'console -9223372036854775808 9223372036854775807\nconsole 9223372036854775808 0\nconsole -9223372036854775809 0\n' 'yes\n?\n?\n'
# digits in pairs make a message that is too long: 2, unless the line is no call
for line in 'line 39994 2' 'deliver 39992 2' 'line 39996 ?' 'line 99996 ?'; do
    read -r name digits answer <<<"$line"
    { printf 'board 0\n%s ' "$name"; many "$digits" 0; printf '\nconsole 6 7\n'; } >"$room/in"
    printf 'board\n%s\nyes\n' "$answer" >"$room/want"
    hand "a line of $((${#name} + 1 + digits)) bytes"
done
{ printf 'log 1024 0\npoke 0 -'; many 39992 ' '; printf '\npoke 0 '; many 39992 0; printf 'ff\npeek 0 1\n'; } >"$room/in"
printf 'log\n?\n?\n00\n' >"$room/want"
hand 'a line whose front alone would be a call'
many 40001 x >"$room/in"
printf '?\n' >"$room/want"
hand 'a long line without its newline'

# ---- nothing is there before it is made
case_of 'before a log' 'numbers\ncheck\nreader\nnumber start 0\npoke 0 00\npeek 0 1\noutside 0 -\nbox 1 1 0 - -\nat 0 0\nwhere 0\nread 0 0\nseek 0 0 0\ncommand 10 0 1 0 0\n' '?\n?\n?\n?\n?\n?\n?\n?\n?\n?\n?\n?\n?\n'
case_of 'before a log, levels' 'minimum 1\nminimum 0\nnumber minimum 1\nnumber saved 1\nnumber saved -\n' '?\n?\n?\n?\n?\n'
case_of 'before a board' 'slot 16\ndeliver -\nline -\nboard 7\nslot 16\nslot 15\nslot 24\n' '?\n?\n3\nboard\nnothing 0\n?\n?\n'
case_of 'before a joiner' 'join -\njoin 0a\njoin\njoin zz\nclose\nclose 1\nopen 16\nopen 15\nopen 24\njoiner 256\nclose\nboard 0\nlog 1024 0\nopen 16\njoiner 255\nclose\nopen 16\nopen 15\nopen 24\njoin -\njoin 0a\n' '?\n?\n?\n?\n?\n?\n?\n?\n?\n?\n?\nboard\nlog\n?\njoiner\nnone\nshut\n?\n?\n3\n4\n'
case_of 'before a disk' 'cut 1\npatch 0 00\ntrail\nnext 960\nsave 1 512\ndisk 512 0\ncut 1\nnext 960\nsave 1 512\n' '?\n?\n?\n?\n?\ndisk\n?\n?\n?\n'
case_of 'a reader that is gone' 'disk 512 0\ntrail\nnext 960\ncut 1\nnext 960\ndisk 0 256\nnext 960\ndisk 0 0\nnext 960\ntrail\nnext 959\nnext 960\nnext 960\n' 'disk\ntrail\nstop check 0\n?\nstop check 0\n?\nstop check 0\ndisk\n?\ntrail\nroom\nend\nend\n'

# ---- callers, and headings of 32 bytes
# "12,0,0,-,caller=N;a": the caller's four bytes and four zeros at 24, the text at 32
case_of 'the caller of a write from outside' 'log 1024 7\nreader\noutside 0 61 4294967295\noutside 0 61 1\noutside 0 61 0\noutside 0 61\nread 0 28\nread 0 29\nread 0 5000\nread 0 5000\nread 0 5000\npeek 24 9\npeek 57 9\npeek 123 9\ncheck\nnumbers\ncommand 9 0 1 0 0\n' 'log\nreader 0\n1 0\n1 0\n1 0\n1 0\n-22 0 -\n29 0 31322c302c302c2d2c63616c6c65723d343239343936373239353b610a\n20 0 31322c312c302c2d2c63616c6c65723d313b610a\n20 0 31322c322c302c2d2c63616c6c65723d303b610a\n20 0 31322c332c302c2d2c63616c6c65723d303b610a\nffffffff0000000061\n010000000000000061\n000000000000000061\nfine\n0 132 0 4 0 0 0 7 1 -\n24 -\n'
case_of 'words that are no caller' 'log 1024 7\noutside 0 61 4294967296\noutside 0 61 18446744073709551615\noutside 0 61 18446744073709551616\noutside 0 61 -1\noutside 0 61 -\noutside 0 61 T1\noutside 0 61 \noutside 0 61 1 1\noutside 0 61  1\noutside 0 61 +1\noutside 0 1\noutside 0 00 4294967296\nnumbers\noutside 0 61 007\npeek 24 4\n' 'log\n?\n?\n?\n?\n?\n?\n?\n?\n?\n?\n?\n?\n0 0 0 0 0 0 0 7 1 -\n1 0\n07000000\n'
case_of 'before a log, with a caller' 'outside 0 61 1\nbox 1 1 0 - - 0 1\nbox 1 1 0 - - 1 4294967295\n' '?\n?\n?\n'
case_of 'a write from the box with fragment and caller' 'log 1024 7\nreader\nbox 16 6 0 61 - 1 4294967295\nbox 16 6 0 61 - 0 256\nbox 16 6 0 61 - 1\nread 0 5000\nread 0 5000\nread 0 5000\npeek 22 10\npeek 55 10\ncheck\n' 'log\nreader 0\n1 0\n1 0\n1 0\n30 0 3133342c302c302c632c63616c6c65723d343239343936373239353b610a\n23 0 3133342c312c302c2d2c63616c6c65723d3235363b610a\n21 0 3133342c322c302c632c63616c6c65723d303b610a\n6300ffffffff00000000\n2d000001000000000000\nfine\n'
case_of 'the seventh word of a box write' 'log 1024 7\nbox 16 6 0 61 - 0 4294967296\nbox 16 6 0 61 - 1 -1\nbox 16 6 0 61 - 1 -\nbox 16 6 0 61 - 1 \nbox 16 6 0 61 - 1 1 1\nbox 16 6 0 61 - 2 1\nbox 16 6 0 61 - - 1\nbox 16 6 0 61 -  1\nbox 256 6 0 61 - 0 4294967296\nbox 256 6 0 61 - 0 4294967295\nbox 16 6 0 61 3d 1 0\nnumbers\nbox 16 6 0 61 - 01 04294967295\npeek 22 10\n' 'log\n?\n?\n?\n?\n?\n?\n?\n?\n?\n-22 0\n-22 0\n0 0 0 0 0 0 0 7 1 -\n1 0\n6300ffffffff00000000\n'
# The caller may be anything; each of the four bytes behind it has to be zero.
case_of 'callers and zeros by hand' 'log 1024 0\noutside 0 61\npoke 24 ffffffff\ncheck\npoke 28 01\ncheck\npoke 28 00\npoke 29 80\ncheck\noutside 0 61\npoke 29 00\npoke 30 ff\ncheck\npoke 30 00\npoke 31 01\ncheck\npoke 31 00\ncheck\npoke 23 01\ncheck\n' 'log\n1 0\npoked\nfine\npoked\nheading 0\npoked\npoked\nheading 0\n-77 0\npoked\npoked\nheading 0\npoked\npoked\nheading 0\npoked\nfine\npoked\nheading 0\n'
# A log of headings of 24 bytes, "x" and "y" at time 0: 25 bytes hold no heading; of 50 the first one takes "x" for its caller and the second one's time for its
# zeros and its text, and 17 are left. With a time of 2^24 ns the fourth byte of it is where a zero has to be.
case_of 'a log of headings of 24 bytes' 'log 1024 0\nreader\npoke 0 00000000000000000000000000000000010000000c002d0078\nnumber used 25\nnumber next 1\ncheck\nread 0 5000\noutside 0 61 7\nsave 7 512\npoke 25 00000000000000000100000000000000010000000c002d0079\nnumber used 50\nnumber next 2\ncheck\nread 0 5000\npoke 28 01\ncheck\npoke 28 00\nnumber used 33\nnumber next 1\ncheck\nread 0 5000\n' 'log\nreader 0\npoked\nset\nset\nheading 0\n-77 0 -\n-77 0\n-77 -\npoked\nset\nset\nheading 1\n-77 0 -\npoked\nheading 0\npoked\nset\nset\nfine\n25 0 31322c302c302c2d2c63616c6c65723d3132303b5c7830300a\n'

# ---- saved trails: ranges, and what a log and a refused save leave
case_of 'ranges of saves and files' 'log 1024 0\nsave 4294967296 512\nsave -1 512\nsave 1 90001\nsave 1\nsave 4294967295 0\ndisk 90001 0\ndisk 0 256\ndisk 90000 255\ncut 1\n' 'log\n?\n?\n?\n?\n-14 -\n?\n?\ndisk\n?\n'
case_of 'ranges of patches and results' 'disk 90000 255\npatch 0 0\npatch 90000 00\npatch 89999 0000\npatch 18446744073709551615 00\npatch 18446744073709551616 00\npatch 0 -\ntrail 0\ntrail\nnext 5001\nnext 5000\nnext 959\n' 'disk\n?\npatched\npatched\npatched\n?\npatched\n?\ntrail\n?\nstop number 0\nroom\n'
# The empty log's block for save 7: the check is zlib's.
printf 'log 1024 7\nsave 7 512\nlog 1023 7\nsave 8 512\ndisk 513 0\ncut 0\ncut 18446744073709551615\ntrail\nlog 1024 7\nsave 8 511\nnext 960\ncut 1\nnext 960\ntrail\nnext 960\n' >"$room/in"
{ printf 'log\n512 000000000000010007000000'; many 992 0; printf 'f3d6bce5\nlog\n-77 -\ndisk\ncut 513\ncut 513\ntrail\nlog\n-14 -\nend\ncut 513\n?\ntrail\nend\n'; } >"$room/want"
hand 'an image, a file and a reader when a log comes'

# ---- the editions of saved trails; the checks are zlib's
# a block of zeros with save number 7
case_of 'editions of one block' 'disk 512 0\npatch 8 07\npatch 508 23c94bd8\ntrail\nnext 960\npatch 6 01\ntrail\nnext 960\npatch 508 f3d6bce5\ntrail\nnext 960\npatch 6 02\ntrail\nnext 960\npatch 508 83f6a5a3\ntrail\nnext 960\npatch 6 ffff\npatch 508 b89fe026\ntrail\nnext 959\nnext 960\nnext 960\npatch 0 01\ntrail\nnext 960\npatch 0 00\npatch 4 f101\ntrail\nnext 960\npatch 6 0000\ntrail\nnext 960\n' 'disk\npatched\npatched\ntrail\nend\npatched\ntrail\nstop check 0\npatched\ntrail\nend\npatched\ntrail\nstop edition 0\npatched\ntrail\nstop edition 0\npatched\npatched\ntrail\nroom\nstop edition 0\nstop edition 0\npatched\ntrail\nstop number 0\npatched\npatched\ntrail\nstop edition 0\npatched\ntrail\nstop count 0\n'
# the same with counts of 496 (its zeros are no heading: the flag), 497 and 65,535, in both editions
case_of 'counts of both editions' 'disk 512 0\npatch 8 07\npatch 4 f001\npatch 508 dec2d5d4\ntrail\nnext 960\npatch 4 f101\npatch 508 c337e5d8\ntrail\nnext 960\npatch 4 ffff\npatch 508 9890f6c8\ntrail\nnext 960\npatch 4 f0010100\npatch 508 0edd22e9\ntrail\nnext 960\npatch 4 f101\npatch 508 132812e5\ntrail\nnext 960\npatch 4 ffff\npatch 508 488f01f5\ntrail\nnext 960\n' 'disk\npatched\npatched\npatched\ntrail\nstop record 0\npatched\npatched\ntrail\nstop count 0\npatched\npatched\ntrail\nstop count 0\npatched\npatched\ntrail\nstop record 0\npatched\npatched\ntrail\nstop count 0\npatched\npatched\ntrail\nstop count 0\n'
# two full blocks, each with one record that has the letter f so often; the second block with another edition under a right check and a wrong one, and with a
# count, a save number and a number that are wrong too
printf 'disk 1024 102\npatch 0 00000000f00100000900000000000000000000000000000000000000d80100000c002d00\npatch 508 be591f5a\npatch 512 01000000f00100000900000000000000000000000100000000000000d80100000c002d00\npatch 1020 ca68c689\ntrail\nnext 960\nnext 960\nnext 960\npatch 518 01\npatch 1020 1a7731b4\ntrail\nnext 960\nnext 960\nnext 959\nnext 960\npatch 518 02\npatch 1020 6a5728f2\ntrail\nnext 960\nnext 960\nnext 959\nnext 960\npatch 1020 00000000\ntrail\nnext 960\nnext 960\nnext 959\nnext 960\npatch 516 f101\ntrail\nnext 960\nnext 960\nnext 959\nnext 960\npatch 520 08\ntrail\nnext 960\nnext 960\nnext 959\nnext 960\npatch 512 02\ntrail\nnext 960\nnext 960\nnext 959\nnext 960\n' >"$room/in"
full() { printf 'record %s 0 12 45 ' "$1"; many 944 6; printf ' - 0 0\n'; }
{ printf 'disk\npatched\npatched\npatched\npatched\ntrail\n'; full 0; full 1; printf 'end\n'; printf 'patched\npatched\ntrail\n'; full 0; printf 'stop edition 1\nroom\nstop edition 1\n'; printf 'patched\npatched\ntrail\n'; full 0; printf 'stop edition 1\nroom\nstop edition 1\n'; printf 'patched\ntrail\n'; full 0; printf 'stop edition 1\nroom\nstop edition 1\n'; printf 'patched\ntrail\n'; full 0; printf 'stop edition 1\nroom\nstop edition 1\n'; printf 'patched\ntrail\n'; full 0; printf 'stop save 1\nroom\nstop save 1\n'; printf 'patched\ntrail\n'; full 0; printf 'stop number 1\nroom\nstop number 1\n'; } >"$room/want"
hand 'edition 0 and then another'
printf 'disk 1024 102\npatch 0 00000000f00101000900000000000000000000000000000000000000d00100000c002d000700000000000000\npatch 508 011b028d\npatch 512 01000000f00101000900000000000000000000000100000000000000d00100000c002d000700000000000000\npatch 1020 752adb5e\ntrail\nnext 960\nnext 960\nnext 960\npatch 518 00\npatch 1020 a5352c63\ntrail\nnext 960\nnext 960\nnext 959\nnext 960\npatch 518 02\npatch 1020 050ac218\ntrail\nnext 960\nnext 960\nnext 959\nnext 960\npatch 1020 00000000\ntrail\nnext 960\nnext 960\nnext 959\nnext 960\npatch 516 f101\ntrail\nnext 960\nnext 960\nnext 959\nnext 960\npatch 520 08\ntrail\nnext 960\nnext 960\nnext 959\nnext 960\npatch 512 02\ntrail\nnext 960\nnext 960\nnext 959\nnext 960\n' >"$room/in"
full() { printf 'record %s 0 12 45 ' "$1"; many 928 6; printf ' - 7 1\n'; }
{ printf 'disk\npatched\npatched\npatched\npatched\ntrail\n'; full 0; full 1; printf 'end\n'; printf 'patched\npatched\ntrail\n'; full 0; printf 'stop edition 1\nroom\nstop edition 1\n'; printf 'patched\npatched\ntrail\n'; full 0; printf 'stop edition 1\nroom\nstop edition 1\n'; printf 'patched\ntrail\n'; full 0; printf 'stop edition 1\nroom\nstop edition 1\n'; printf 'patched\ntrail\n'; full 0; printf 'stop edition 1\nroom\nstop edition 1\n'; printf 'patched\ntrail\n'; full 0; printf 'stop save 1\nroom\nstop save 1\n'; printf 'patched\ntrail\n'; full 0; printf 'stop number 1\nroom\nstop number 1\n'; } >"$room/want"
hand 'edition 1 and then another'

# ---- console off and on
case_of 'off and on' 'log 1024 0\nnumbers\ncommand 8 4 1 0 0\ncommand 6 0 1 0 0\nnumbers\ncommand 7 0 1 0 0\nnumbers\n' 'log\n0 0 0 0 0 0 0 7 1 -\n0 -\n0 -\n0 0 0 0 0 0 0 1 1 4\n0 -\n0 0 0 0 0 0 0 4 1 -\n'
case_of 'ranges of the minimum' 'log 1024 0\nminimum 8\nminimum 0\nminimum 9\nminimum -1\nminimum 9223372036854775807\nminimum -9223372036854775808\nminimum 9223372036854775808\nminimum -9223372036854775809\nminimum\nminimum 5 5\nminimum -\nnumbers\n' 'log\n0\n-22\n-22\n-22\n-22\n-22\n?\n?\n?\n?\n?\n0 0 0 0 0 0 0 7 8 -\n'
case_of 'levels by hand' 'log 1024 0\nnumber minimum 18446744073709551615\nnumber saved 9\nnumbers\nnumber minimum -\nnumber minimum 18446744073709551616\nnumber saved -1\nminimum 5\nnumber minimum 8\ncheck\nnumber saved -\ncheck\nnumbers\n' 'log\nset\nset\n0 0 0 0 0 0 0 7 18446744073709551615 9\n?\n?\n?\n-77\nset\nnumbers\nset\nfine\n0 0 0 0 0 0 0 7 8 -\n'

# ---- lines of a text, each with its prefix
case_of 'two lines' 'log 1024 0\nbox 1 4 0 610a -\ncommand 9 0 1 0 0\ncommand 2 7 1 0 7\nnumbers\ncommand 2 1 1 0 1\nnumbers\ncommand 3 3 1 0 3\ncommand 9 0 1 0 0\n' 'log\n2 0\n11 -\n7 3c31323e610a3c\n0 34 0 1 0 0 7 7 1 -\n1 31\n0 34 0 1 0 0 8 7 1 -\n3 323e0a\n3 -\n'
case_of 'limits of the offset' 'log 1024 0\nnumber next 1\nnumber first 1\nnumber offset 6726\ncheck\nnumber offset 6727\ncheck\noutside 0 61\nnumber offset 0\nbox 255 7 0 0a -\nnumber position 1\nnumber offset 13\ncheck\nnumber offset 14\ncheck\n' 'log\nset\nset\nset\nfine\nset\nnumbers\n-77 0\nset\n1 0\nset\nset\nfine\nset\nnumbers\n'

# ---- fragments
# "134,0,0,c,caller=0;a" and "134,1,0,-,caller=0;a", the flags at 22 and 55
case_of 'a write that is a fragment' 'log 1024 0\nreader\nbox 16 6 0 61 - 1\nbox 16 6 0 61 - 0\nread 0 5000\nread 0 5000\npeek 22 1\npeek 55 1\ncheck\npoke 55 2b\ncheck\npoke 55 63\ncheck\nnumbers\n' 'log\nreader 0\n1 0\n1 0\n21 0 3133342c302c302c632c63616c6c65723d303b610a\n21 0 3133342c312c302c2d2c63616c6c65723d303b610a\n63\n2d\nfine\npoked\nheading 1\npoked\nfine\n0 66 0 2 0 0 0 7 1 -\n'
case_of 'the sixth word of a box write' 'box 16 6 0 61 - 1\nlog 1024 0\nbox 16 6 0 61 - 2\nbox 16 6 0 61 - \nbox 16 6 0 61 - -\nbox 16 6 0 61 - -1\nbox 16 6 0 61 - 1 \nbox 256 6 0 61 - 2\nbox 256 6 0 61 - 1\nbox 16 6 0 61 -\nnumbers\n' '?\nlog\n?\n?\n?\n?\n?\n?\n-22 0\n1 0\n0 33 0 1 0 0 0 7 1 -\n'
case_of 'odd words of the joiner' 'joiner 7\njoin 3133342c352c302c633b610a\njoiner 256\njoiner -1\njoiner\njoiner 0 0\njoin\njoin \njoin zz\njoin 0\njoin 0A\njoin - -\nclose 1\nclose \nclose 16\nopen\nopen 15\nopen 24\nopen -16\nopen 16 16\nopen 16\nclose\nclose\njoin 3133342c352c302c633b610a\n' 'joiner\n0\n?\n?\n?\n?\n?\n?\n?\n?\n?\n?\n?\n?\n?\n?\n?\n?\n?\n?\nopen 61\n16 61\nnone\n10\n'
# c, + and - of facility 16: 134,1,0,c;a  134,2,0,+;b  134,3,0,-;d  134,4,0,+;e
case_of 'pieces' 'joiner 7\njoin 3133342c312c302c633b610a\njoin 3133342c322c302c2b3b620a\njoin 3133342c332c302c2d3b640a\njoin 3133342c342c302c2b3b650a\nlog 1024 0\nboard 0\njoin 3133342c342c302c2d3b660a\n' 'joiner\n0\n0\n0 16 6162 16 64\n0 16 65\nlog\nboard\n10\n'
# 959 bytes and one are given when another comes, which opens a new text
{ printf 'joiner 7\njoin 3133342c312c302c633b'; many 1918 6; printf '0a\njoin 3133342c322c302c2b3b620a\njoin 3133342c332c302c2b3b640a\nopen 16\n'; } >"$room/in"
{ printf 'joiner\n0\n0\n0 16 '; many 1918 6; printf '62\nopen 64\n'; } >"$room/want"
hand 'a joined text of 960 bytes'

# ---- readers
{ echo 'log 1024 0'; for i in $(seq 17); do echo reader; done; printf 'where 15\nwhere 16\nlog 1024 0\nwhere 0\n'; } >"$room/in"
{ echo log; for i in $(seq 0 15); do echo "reader $i"; done; printf '?\n0\n?\nlog\n?\n'; } >"$room/want"
hand 'seventeen readers'

# ---- the longest answers, and buffers of no size
{ printf 'log 70000 171\npeek 0 70000\nlog 0 7\npeek 0 9\ncheck\noutside 0 61\n'; } >"$room/in"
{ echo log; many 70000 @ | sed 's/@/ab/g'; printf '\nlog\n-\nnumbers\n-77 0\n'; } >"$room/want"
hand 'a peek at the largest buffer'

# ---- the sample script of `make replay`
cp samples/rehearsal.script "$room/in"
cp samples/rehearsal.expected "$room/want"
hand 'samples/rehearsal.script'

# ---- scripts
script 101 4000
script 102 4000
script 103 4000
script 104 4000
script 105 4000 wide
script 106 4000 trail
script 107 4000 trail
script 108 4000 console
script 109 4000 console
script 110 4000 lines
script 111 4000 lines
script 112 4000 joiner
script 113 4000 joiner
script 114 4000 joiner
script 115 4000 joiner
script 116 4000 editions
script 117 4000 editions
# every run of up to five of eight console calls, and each of those calls on every log with levels of 0 to 9
script all console
script all levels
# small logs with texts of many lines, each read by command 2 byte by byte and then, made again, in one read
script all bytes
# runs of up to five joiner calls, every one of each length over its own few calls, each on a fresh joiner
script all pieces
# every choice of four editions over files of one to three blocks, good otherwise and with each other field of each block wrong
script all editions

# ---- input that comes in pieces
printf 'yes\nno\n' >"$room/want"
{ printf 'conso'; sleep 0.1; printf 'le 6 7\nconsole 7'; sleep 0.1; printf ' 7'; } | "$program" >"$room/wrote"
if cmp -s "$room/want" "$room/wrote"; then passed=$((passed + 1)); else failed=$((failed + 1)); echo 'DIFFERS: input in pieces'; fi

echo "replay: $lines script lines and $messages messages compared; $passed passed, $failed failed"
[ "$failed" -eq 0 ]
