#!/bin/bash
# Saved trails of both editions: the replay program and the second program on a systematic script (many logs and old files with every cut, damage at every
# border), on scripts from fixed seeds, on every choice of editions over three blocks and on the samples, compared byte for byte; the answers of each are held to
# trail_images.py, which makes and reads the images with zlib and struct.
# trail_cases.sh [PROGRAM]: prints each script that differs with its first line that does, and what was checked. With the word none, the second program alone.
set -uo pipefail
cd "$(dirname "$0")/.."
program=${1:-crates/replay/out/replay}
second=compare/target/release/compare
[ "$program" = none ] || [ -x "$program" ] || { echo "no program $program: run 'bash tools/proved replay' first"; exit 2; }
(cd compare && cargo build --release --offline --quiet) || exit 2
room=$(mktemp -d)
trap 'rm -rf "$room"' EXIT
passed=0 failed=0 lines=0

# told NAME COMMAND..: the command's words and whether it went well
told() {
    local name=$1
    shift
    if "$@" >"$room/said"; then passed=$((passed + 1)); else failed=$((failed + 1)); fi
    echo "$name: $(cat "$room/said")"
}

# alike: both programs' answers are the same
alike() {
    cmp -s "$room/want" "$room/wrote" && { echo 'the same answers'; return; }
    line=$(diff --text "$room/want" "$room/wrote" | sed -n '1s/[^0-9].*//p')
    echo "DIFFERS: line $line"
    echo "  script: $(sed -n "${line}p" "$room/in" | cut -c1-200)"
    echo "  wanted: $(sed -n "${line}p" "$room/want" | cut -c1-200)"
    echo "  wrote:  $(sed -n "${line}p" "$room/wrote" | cut -c1-200)"
    return 1
}

# held NAME: $room/in, answered by both
held() {
    "$second" answer <"$room/in" >"$room/want"
    lines=$((lines + $(wc -l <"$room/in")))
    told "$1, the second program" python3 compare/trail_images.py check "$room/in" "$room/want"
    [ "$program" = none ] && return
    "$program" <"$room/in" >"$room/wrote"
    told "$1, $program" python3 compare/trail_images.py check "$room/in" "$room/wrote"
    told "$1, both" alike
}

python3 compare/trail_images.py script >"$room/in" || exit 2
held 'every cut'
for seed in 106 107; do
    "$second" script "$seed" 4000 trail >"$room/in"
    held "script $seed"
done
for seed in 116 117; do
    "$second" script "$seed" 4000 editions >"$room/in"
    held "script $seed"
done
"$second" script all editions >"$room/in"
held 'script all editions'
# The samples are older trails.
for sample in samples/trail.image samples/trail-cut.image; do
    { echo "disk $(wc -c <"$sample") 0"; echo "patch 0 $(od -An -v -tx1 "$sample" | tr -d ' \n')"; echo trail; for i in $(seq 17); do echo next 960; done; } >"$room/in"
    held "$sample"
done

echo "trails: $lines script lines; $passed passed, $failed failed"
[ "$failed" -eq 0 ]
