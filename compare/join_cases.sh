#!/bin/bash
# The program join_lines on odd inputs: what it writes is held to what ticket 6 and document 01 say, worked out by hand.
# join_cases.sh [PROGRAM]: prints each case that differs, and a last line 'N passed, M failed'.
set -uo pipefail
cd "$(dirname "$0")/.."
program=${1:-crates/join_lines/out/join_lines}
[ -x "$program" ] || { echo "no program $program: run 'bash tools/proved join_lines' first"; exit 2; }
room=$(mktemp -d)
trap 'rm -rf "$room"' EXIT
passed=0 failed=0

# held NAME: $room/in is fed to the program, and what it writes has to be $room/want
held() {
    "$program" <"$room/in" >"$room/wrote"
    if cmp -s "$room/want" "$room/wrote"; then
        passed=$((passed + 1))
    else
        failed=$((failed + 1))
        echo "DIFFERS: $1"
        diff "$room/want" "$room/wrote" | head -n 6 | cut -c1-200
    fi
}

# case_of NAME INPUT WANT: both as printf has them, where \\ is one '\'
case_of() {
    printf "$2" >"$room/in"
    printf "$3" >"$room/want"
    held "$1"
}

# many COUNT BYTE: that byte so often
many() { head -c "$1" /dev/zero | tr '\0' "$2"; }

# ---- grouping
case_of 'empty input' '' 'refused 0\n'
case_of 'one newline' '\n' 'refused 1\n'
case_of 'blank lines are messages' '\n134,1,1,c;a\n\n134,2,1,+;b\n\n' '16 ab\nrefused 3\n'
case_of 'no final newline on the last piece' '134,1,1,c;a\n134,2,1,+;b' '16 a\nrefused 1\n'
case_of 'continuations go with their piece, and are no text' '134,1,1,c;a\n k=v\n134,2,1,+;b\n l=w\n' '16 ab\nrefused 0\n'
case_of 'a bad continuation refuses its piece' '134,1,1,c;a\n134,2,1,+;b\n lw\n134,3,1,+;c\n' '16 ac\nrefused 1\n'
case_of 'first line begins with a space' ' 134,1,1,c;a\n134,2,1,-;b\n' '16 b\nrefused 1\n'

# ---- the length of the input
many 65536 '\n' >"$room/in"
echo 'refused 65536' >"$room/want"
held '65,536 newlines'
{ printf '134,7,1,c;1-0\n'; many 65522 '\n'; } >"$room/in"
printf '16 1-0\nrefused 65522\n' >"$room/want"
held '65,536 bytes with an open text'
{ printf '134,7,1,c;1-0\n'; many 65523 '\n'; } >"$room/in"
echo 'input too long' >"$room/want"
held '65,537 bytes'
many 1000000 'x' >"$room/in"
held 'a million bytes'

# ---- pieces
case_of 'three pieces and the end' '134,1,1,c;a\n134,2,1,+;b\n134,3,1,+;c\n' '16 abc\nrefused 0\n'
case_of 'c adds to what is open' '134,1,1,c;a\n134,2,1,c;b\n134,3,1,-;c\n' '16 ab\n16 c\nrefused 0\n'
case_of 'the closed one before its closer' '134,1,1,c;a\n134,2,1,-;b\n' '16 a\n16 b\nrefused 0\n'
case_of 'a closer opens nothing' '134,1,1,c;a\n134,2,1,-;b\n134,3,1,+;c\n' '16 a\n16 b\n16 c\nrefused 0\n'
case_of '+ first stands alone' '134,1,1,+;a\n134,2,1,+;b\n' '16 a\n16 b\nrefused 0\n'
case_of '+ first and then c' '134,1,1,+;a\n134,2,1,c;b\n134,3,1,+;c\n' '16 a\n16 bc\nrefused 0\n'
case_of 'other flags stand alone' '134,1,1,cc;a\n134,2,1,c+;b\n134,3,1,+c;c\n134,4,1,C;d\n134,5,1,++;e\n' '16 a\n16 b\n16 c\n16 d\n16 e\nrefused 0\n'
case_of 'other flags close' '134,1,1,c;a\n134,2,1,cc;b\n134,3,1,c;c\n134,4,1,c+;d\n' '16 a\n16 b\n16 c\n16 d\nrefused 0\n'
case_of 'added fields are no part of the flag' '134,1,1,c,caller=T1;a\n134,2,1,+,c;b\n' '16 ab\nrefused 0\n'
case_of 'an empty piece opens' '134,1,1,c;\n134,2,1,+;a\n' '16 a\nrefused 0\n'
case_of 'an empty piece alone is given at the end' '134,1,1,c;\n' '16 \nrefused 0\n'
case_of 'empty texts' '134,1,1,c;\n134,2,1,-;\n' '16 \n16 \nrefused 0\n'

# ---- facilities
case_of 'two interleaved' '134,1,1,c;a\n142,2,1,c;x\n134,3,1,+;b\n142,4,1,+;y\n142,5,1,-;z\n134,6,1,-;c\n' '17 xy\n17 z\n16 ab\n16 c\nrefused 0\n'
case_of 'another facility closes nothing' '134,1,1,c;a\n142,2,1,-;x\n134,3,1,+;b\n' '17 x\n16 ab\nrefused 0\n'
case_of 'another level of a facility adds' '128,1,1,c;a\n135,2,1,+;b\n' '16 ab\nrefused 0\n'
case_of 'facilities 15 and 24 are refused, and close nothing' '134,1,1,c;a\n127,2,1,-;x\n192,3,1,+;x\n134,2,1,+;b\n' '16 ab\nrefused 2\n'
case_of 'closed at the end, the lowest first' '184,1,1,c;h\n176,2,1,c;g\n168,3,1,c;f\n160,4,1,c;e\n152,5,1,c;d\n144,6,1,c;c\n136,7,1,c;b\n128,8,1,c;a\n' '16 a\n17 b\n18 c\n19 d\n20 e\n21 f\n22 g\n23 h\nrefused 0\n'
case_of 'what was closed is not closed again' '134,1,1,c;a\n190,2,1,c;x\n134,3,1,-;b\n' '16 a\n16 b\n23 x\nrefused 0\n'

# ---- numbers
case_of 'late across facilities' '134,5,1,c;a\n142,4,1,-;x\n142,5,1,-;y\n142,6,1,-;z\n134,7,1,+;b\n' '17 z\n16 ab\nrefused 2\n'
case_of 'a late closer closes nothing' '134,5,1,c;a\n134,5,1,-;x\n134,6,1,+;b\n' '16 ab\nrefused 1\n'
case_of 'the same piece again' '134,5,1,c;a\n134,5,1,c;a\n134,6,1,+;b\n134,6,1,+;b\n' '16 ab\nrefused 2\n'
case_of 'number 0' '134,0,0,c;a\n134,0,0,+;b\n134,1,0,+;c\n' '16 ac\nrefused 1\n'
case_of 'the largest number' '134,18446744073709551615,1,c;a\n134,18446744073709551615,1,+;b\n134,18446744073709551616,1,+;c\n' '16 a\nrefused 2\n'
case_of 'a refused number is not taken' '134,9\n134,5,1,c;a\n127,8,1,-;x\n134,6,1,+;b\n' '16 ab\nrefused 2\n'
case_of 'an earlier time with a higher number' '134,5,9,c;a\n134,6,1,+;b\n' '16 ab\nrefused 0\n'

# ---- misshapen between two pieces
case_of 'no text' '134,1,1,c;a\n134,2\n134,2,1,+;b\n' '16 ab\nrefused 1\n'
case_of 'a leading zero, an empty flag, upper-case hex' '134,1,1,c;a\n134,02,1,-;x\n134,2,1,;x\n134,2,1,-;\\x4A\n134,2,1,+;b\n' '16 ab\nrefused 3\n'
case_of 'a raw byte' '134,1,1,c;a\n134,2,1,-;\001\n134,2,1,-;x\177\n134,2,1,+;b\n' '16 ab\nrefused 2\n'

# ---- escapes
case_of 'bytes that are escaped, and one that is not' '134,1,1,c;a\\x5cb\n134,2,1,+;\\x0ac\\x7f~\\x00\\xff \n' '16 a\\x5cb\\x0ac\\x7f~\\x00\\xff \nrefused 0\n'
case_of 'escapes beyond need' '134,1,1,c;\\x31\\x2d\n134,2,1,+;\\x30\n' '16 1-0\nrefused 0\n'
case_of 'a letter cut between two pieces' '134,1,1,c;Jos\\xc3\n134,2,1,+;\\xa9\n' '16 Jos\\xc3\\xa9\nrefused 0\n'
case_of 'a backslash at the end of a piece is no escape with the next' '134,1,1,c;a\\x5c\n134,2,1,+;x41\n' '16 a\\x5cx41\nrefused 0\n'

# ---- the border of 960 bytes
# joined FIRST SECOND: two pieces of so many bytes, and what is written for them
joined() {
    { printf '134,1,1,c;'; many "$1" 'a'; printf '\n134,2,1,+;'; many "$2" 'b'; printf '\n'; } >"$room/in"
    { printf '16 '; many "$1" 'a'; [ $(($1 + $2)) -le 960 ] || printf '\n16 '; many "$2" 'b'; printf '\nrefused 0\n'; } >"$room/want"
    held "pieces of $1 and $2 bytes"
}
joined 959 1
joined 959 2
joined 960 1
joined 960 0
joined 1 959
joined 1 960
joined 480 480
joined 480 481
joined 960 960
{ printf '134,1,1,c;'; many 960 'a'; printf '\n134,2,1,c;'; many 961 'b'; printf '\n134,3,1,+;c\n'; } >"$room/in"
{ printf '16 '; many 960 'a'; printf '\n16 c\nrefused 1\n'; } >"$room/want"
held 'a piece of 961 bytes is refused'
{ printf '134,1,1,c;'; many 959 'a'; printf '\n134,2,1,+;bb\n134,3,1,+;c\n134,4,1,-;d\n'; } >"$room/in"
{ printf '16 '; many 959 'a'; printf '\n16 bbc\n16 d\nrefused 0\n'; } >"$room/want"
held 'what does not fit opens a new text'
{ printf '134,1,1,c;'; many 960 '@' | sed 's/@/\\x00/g'; printf '\n134,2,1,+;\\x01\n'; } >"$room/in"
{ printf '16 '; many 960 '@' | sed 's/@/\\x00/g'; printf '\n16 \\x01\nrefused 0\n'; } >"$room/want"
held 'the border counts bytes, not their escapes'
{ printf '134,1,1,-,'; many 8181 'x'; printf ';\n134,1,1,-;y\n'; } >"$room/in"
printf '16 y\nrefused 1\n' >"$room/want"
held 'a message of 8,193 bytes'

# ---- much of it: full texts of bytes that are all escaped, eight facilities twice over, the second time closing what the first opened
: >"$room/in"
: >"$room/want"
text=$(many 960 '@' | sed 's/@/\\x00/g')
for n in 1 2 3 4 5 6 7 8; do
    printf '%s,%s,1,c;%s\n' $((120 + 8 * n)) "$n" "$text" >>"$room/in"
done
for n in 1 2 3 4 5 6 7 8; do
    printf '%s,%s,1,-;%s\n' $((120 + 8 * n)) $((n + 10)) "$text" >>"$room/in"
    printf '%s %s\n%s %s\n' $((15 + n)) "$text" $((15 + n)) "$text" >>"$room/want"
done
size=$(wc -c <"$room/in")
many $((65536 - size)) '\n' >>"$room/in"
echo "refused $((65536 - size))" >>"$room/want"
held 'sixteen full texts, all escaped'
# as many lines as there can be: texts without a byte
: >"$room/in"
: >"$room/want"
for n in $(seq 0 4500); do
    printf '128,%s,0,-;\n' "$n" >>"$room/in"
    printf '16 \n' >>"$room/want"
done
echo 'refused 0' >>"$room/want"
held '4,501 empty texts'

# ---- the sample
cp samples/referee.kmsg "$room/in"
cp samples/referee.expected "$room/want"
held 'samples/referee.kmsg'

# ---- input that comes in pieces
printf '16 1-0\nrefused 1\n' >"$room/want"
{ printf '134,7,1,c;1'; sleep 0.1; printf -- '-\n134,9,3'; sleep 0.1; printf ',+;0\n134,8,2,-;1-0\n'; } | "$program" >"$room/wrote"
if cmp -s "$room/want" "$room/wrote"; then passed=$((passed + 1)); else failed=$((failed + 1)); echo 'DIFFERS: input in pieces'; fi

echo "join: $passed passed, $failed failed"
[ "$failed" -eq 0 ]
