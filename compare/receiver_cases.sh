#!/bin/bash
# The receiver program on odd inputs: what it writes is held to what document 01 says, worked out by hand.
# receiver_cases.sh [PROGRAM]: prints each case that differs, and a last line 'N passed, M failed'.
set -uo pipefail
cd "$(dirname "$0")/.."
program=${1:-crates/receiver/out/receiver}
[ -x "$program" ] || { echo "no program $program: run 'bash tools/proved receiver' first"; exit 2; }
room=$(mktemp -d)
trap 'rm -rf "$room"' EXIT
passed=0 failed=0

# held NAME: $room/in is fed to the program, and what it writes has to be $room/want
held() {
    "$program" <"$room/in" >"$room/wrote"
    if cmp -s "$room/want" "$room/wrote"; then
        passed=$((passed + 1))
    else
        failed=$((failed + 1))
        echo "DIFFERS: $1"
        diff "$room/want" "$room/wrote" | head -n 6 | cut -c1-200
    fi
}

# case_of NAME INPUT WANT: both as printf has them, where \\ is one '\'
case_of() {
    printf "$2" >"$room/in"
    printf "$3" >"$room/want"
    held "$1"
}

# many COUNT BYTE: that byte so often
many() { head -c "$1" /dev/zero | tr '\0' "$2"; }

# ---- grouping
case_of 'T14 to T16' '134,7,1,-;1-0\n134,9,3,-;0-0\n134,8,2,-;1-0\n' '16 9 0-0\nrefused 1\n'
case_of 'empty input' '' 'refused 0\n'
case_of 'one newline' '\n' 'refused 1\n'
case_of 'blank lines are messages' '\n\n134,7,1,-;1-0\n\n' '16 7 1-0\nrefused 3\n'
case_of 'no final newline' '134,7,1,-;1-0' 'refused 1\n'
case_of 'no final newline on the last message' '134,7,1,-;1-0\n134,9,3,-;0-0' '16 7 1-0\nrefused 1\n'
case_of 'no final newline on a continuation' '134,7,1,-;1-0\n k=v' 'refused 1\n'
case_of 'first line begins with a space' ' 134,7,1,-;1-0\n' 'refused 1\n'
case_of 'lines with a space before the first message' ' x\n y\n134,7,1,-;1-0\n' '16 7 1-0\nrefused 1\n'
case_of 'continuations go with their line' '134,7,1,-;1-0\n k=v\n l=w\n134,9,3,-;0-0\n' '16 9 0-0\nrefused 0\n'
case_of 'a bad continuation refuses its whole message' '134,7,1,-;1-0\n k=v\n lw\n134,6,3,-;0-0\n' '16 6 0-0\nrefused 1\n'
case_of 'a tab begins a message' '134,7,1,-;1-0\n\tk=v\n' '16 7 1-0\nrefused 1\n'
case_of 'a line of one space is a bad continuation' '134,7,1,-;1-0\n \n' 'refused 1\n'
case_of 'carriage return' '134,7,1,-;1-0\r\n' 'refused 1\n'
case_of 'zero byte' '134,7,1,-;1\0000\n134,8,1,-;x\n' '16 8 x\nrefused 1\n'

# ---- the length of the input
many 65536 '\n' >"$room/in"
echo 'refused 65536' >"$room/want"
held '65,536 newlines'
{ printf '134,7,1,-;1-0\n'; many 65522 '\n'; } >"$room/in"
printf '16 7 1-0\nrefused 65522\n' >"$room/want"
held '65,536 bytes with a record'
{ printf '134,7,1,-;1-0\n'; many 65523 '\n'; } >"$room/in"
echo 'input too long' >"$room/want"
held '65,537 bytes'
many 1000000 'x' >"$room/in"
held 'a million bytes'

# ---- what is shown
case_of 'channels upward' '184,1,1,-;last\n128,2,1,-;first\n159,3,1,-;third\n' '16 2 first\n19 3 third\n23 1 last\nrefused 0\n'
case_of 'facilities 15 and 24 have no channel' '127,1,1,-;x\n192,1,1,-;x\n' 'refused 2\n'
case_of 'the largest numbers' '191,18446744073709551615,18446744073709551615,-;x\n' '23 18446744073709551615 x\nrefused 0\n'
case_of 'one above the largest' '134,18446744073709551616,1,-;x\n134,1,18446744073709551616,-;x\n2048,1,1,-;x\n' 'refused 3\n'
case_of 'number 0' '134,0,0,-;x\n' '16 0 x\nrefused 0\n'
case_of 'the same number again' '134,7,1,-;1-0\n134,7,2,-;2-0\n' '16 7 1-0\nrefused 1\n'
case_of 'an earlier time with a higher number' '134,7,9,-;1-0\n134,8,1,-;0-0\n' '16 8 0-0\nrefused 0\n'
case_of 'a short text over a long one' '134,7,1,-;a long text\n134,8,1,-;b\n' '16 8 b\nrefused 0\n'
case_of 'an empty text' '134,7,1,-;\n' '16 7 \nrefused 0\n'
case_of 'bytes that are escaped, and one that is not' '134,7,1,-;a\\x5cb\\x0ac\\x7f~\\x00\\xff \n' '16 7 a\\x5cb\\x0ac\\x7f~\\x00\\xff \nrefused 0\n'
case_of 'escapes beyond need' '134,7,1,-;\\x31\\x2d\\x30\n' '16 7 1-0\nrefused 0\n'
case_of 'upper-case hex' '134,7,1,-;\\x4A\n' 'refused 1\n'
case_of 'another flag and added fields' '134,7,1,zz,caller=T1,;a,b;c\n' '16 7 a,b;c\nrefused 0\n'
case_of 'too few fields, and an empty flag' '134,7,1;x\n134,7,1,;x\n' 'refused 2\n'
case_of 'a leading zero' '134,07,1,-;x\n' 'refused 1\n'

# ---- the longest
{ printf '134,7,1,-;'; many 960 'x'; printf '\n'; } >"$room/in"
{ printf '16 7 '; many 960 'x'; printf '\nrefused 0\n'; } >"$room/want"
held 'a full slot'
{ printf '134,7,1,-;'; many 961 'x'; printf '\n'; } >"$room/in"
echo 'refused 1' >"$room/want"
held 'a text of 961 bytes'
{ printf '134,7,1,-,'; many 8181 'x'; printf ';\n134,8,1,-;y\n'; } >"$room/in"
printf '16 8 y\nrefused 1\n' >"$room/want"
held 'a message of 8,193 bytes'
{ printf '134,7,1,-,'; many 8180 'x'; printf ';\n134,6,1,-;y\n'; } >"$room/in"
printf '16 7 \nrefused 1\n' >"$room/want"
held 'a message of 8,192 bytes'
# a full slot of bytes that are all escaped, with the largest number, on every channel
: >"$room/in"
: >"$room/want"
for facility in 16 17 18 19 20 21 22 23; do
    text=$(many 960 '@' | sed 's/@/\\x00/g')
    printf '%s,18446744073709551615,1,-;%s\n' $((facility * 8 + 7)) "$text" >>"$room/in"
    printf '%s 18446744073709551615 %s\n' "$facility" "$text" >>"$room/want"
done
many 34560 '\n' >>"$room/in"
echo 'refused 34560' >>"$room/want"
held 'the longest report'

# ---- the sample
cp samples/match.kmsg "$room/in"
cp samples/match.expected "$room/want"
held 'samples/match.kmsg'

# ---- input that comes in pieces
printf '16 9 0-0\nrefused 1\n' >"$room/want"
{ printf '134,7,1,-;1'; sleep 0.1; printf -- '-0\n134,9,3'; sleep 0.1; printf ',-;0-0\n134,8,2,-;1-0\n'; } | "$program" >"$room/wrote"
if cmp -s "$room/want" "$room/wrote"; then passed=$((passed + 1)); else failed=$((failed + 1)); echo 'DIFFERS: input in pieces'; fi

echo "receiver: $passed passed, $failed failed"
[ "$failed" -eq 0 ]
