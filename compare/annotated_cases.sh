#!/bin/bash
# The replay program and the second program on annotated scripts: what each answers is held to odd.txt (odd inputs) and to moments.txt (document 01's moments
# and tables), both worked out by hand from document 01.
# annotated_cases.sh [PROGRAM]: prints each answer that differs, and for each file how many were compared. With the word none, the second program alone.
set -euo pipefail
cd "$(dirname "$0")/.."
program=${1:-crates/replay/out/replay}
[ "$program" = none ] || [ -x "$program" ] || { echo "no program $program: run 'bash tools/proved replay' first"; exit 2; }
(cd compare && cargo build --release --offline --quiet)
room=$(mktemp -d)
trap 'rm -rf "$room"' EXIT
failed=0

# lines MARK FILE: what stands behind this mark, with {61*3} written out as 616161
lines() {
    awk -v mark="$1 " '
        function often(bytes, count, half) {
            if (count == 0) return ""
            half = often(bytes, int(count / 2))
            return half half (count % 2 ? bytes : "")
        }
        index($0, mark) == 1 {
            line = substr($0, 3)
            while (match(line, /[{][0-9a-f]+[*][0-9]+[}]/)) {
                split(substr(line, RSTART + 1, RLENGTH - 2), of, "*")
                line = substr(line, 1, RSTART - 1) often(of[1], of[2] + 0) substr(line, RSTART + RLENGTH)
            }
            print line
        }' "$2"
}

# items FILE: for each call its item, the first line of the comment above it
items() {
    awk '/^# / && !above { item = substr($0, 3) } { above = /^# / } /^> / { print item }' "$1"
}

# paired FILE: there are calls, each with its answer right behind it, and nothing else but comments and empty lines
paired() {
    awk '
        !/^$/ && !/^# / && !/^> / && !/^< / { bad = 1 }
        /^< / && !asked { bad = 1 }
        !/^< / && asked { bad = 1 }
        { asked = /^> /; calls += asked }
        END { exit bad || asked || !calls }' "$1"
}

# held FILE NAME COMMAND..: the command answers the script, and its answers have to be the expected ones
held() {
    local file=$1 name=$2
    shift 2
    "$@" <"$room/script" >"$room/answers" || { echo "$file: $name failed"; failed=1; }
    if cmp -s "$room/expected" "$room/answers"; then
        echo "$file: $name gave all $calls answers as expected"
        return
    fi
    failed=1
    paste "$room/items" "$room/script" "$room/expected" "$room/answers" | awk -F '\t' '
        $3 != $4 { n++ }
        $3 != $4 && n <= 20 { printf "DIFFERS: %s\n", $1; for (i = 2; i <= 4; i++) print "    " substr($i, 1, 200) }
        END { print n + 0 " answers differ; above: the item, the call, the expected answer, the answer" }'
    echo "$file: $name differs ($(wc -l <"$room/answers") answers, $calls expected)"
}

for file in odd.txt moments.txt; do
    paired "compare/$file" || { echo "$file: a call without its answer, or none"; exit 1; }
    lines '>' "compare/$file" >"$room/script"
    lines '<' "compare/$file" >"$room/expected"
    items "compare/$file" >"$room/items"
    calls=$(wc -l <"$room/script")
    [ "$program" = none ] || held "$file" "$program" "$program"
    held "$file" 'the second program' compare/target/release/compare answer
done
exit "$failed"
