#!/bin/bash
# Old receivers read the new lines (document 02, ticket 7): a night of writes with callers goes through the replay program, and its lines to the receiver, which
# shows what the writes alone say. The receiver may be one that was built before lines had a caller.
# night_lines.sh [REPLAY [RECEIVER]]: prints what differs, and what was read.
set -uo pipefail
cd "$(dirname "$0")/.."
replay=${1:-crates/replay/out/replay}
receiver=${2:-crates/receiver/out/receiver}
for program in "$replay" "$receiver"; do
    [ -x "$program" ] || { echo "no program $program: run 'bash tools/proved replay' first"; exit 2; }
done
room=$(mktemp -d)
trap 'rm -rf "$room"' EXIT

python3 compare/night_lines.py script >"$room/script"
"$replay" <"$room/script" >"$room/answers"
python3 compare/night_lines.py lines "$room/answers" >"$room/lines"
python3 compare/night_lines.py shown >"$room/want"
"$receiver" <"$room/lines" >"$room/wrote"
headers=$(grep --text -c '^[0-9]*,[0-9]*,[0-9]*,[-c],caller=[0-9]*;' "$room/lines")
writes=$(grep -c '^box ' "$room/script")
if [ "$headers" != "$writes" ]; then
    echo "DIFFERS: $writes writes, and $headers lines with a caller"
    exit 1
fi
if ! cmp -s "$room/want" "$room/wrote"; then
    echo 'DIFFERS: the board after a night of lines with callers'
    diff --text "$room/want" "$room/wrote" | head -n 6 | cut -c1-200
    exit 1
fi
echo "a night of lines: $writes lines with a caller, $(wc -c <"$room/lines") bytes, read as the writes say"
