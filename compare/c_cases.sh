#!/bin/bash
# The second program's messages through the C library: every answer, numbers block and result has to be the second program's, byte for byte.
# Prints how many were compared.
set -euo pipefail
cd "$(dirname "$0")/.."
mkdir -p target && (cd crates/renderer && rt lib) >target/staticlib.log
(cd compare && cargo build --release --offline --quiet)
mkdir -p target/compare
cc -std=c11 -O2 -Wall -Wextra -Werror -Iinclude compare/lines.c crates/renderer/out/librenderer.a -o target/compare/lines
second=compare/target/release/compare
room=$(mktemp -d)
trap 'rm -rf "$room"' EXIT

# compared SEED [wide]: a script's messages and console questions, each message for the line reader
compared() {
    "$second" script "$1" 30000 "${@:2}" | LC_ALL=C sed -n -e 's/^deliver/line/' -e 's/^join\( \|$\)/line\1/' -e '/^line\( \|$\)/p' -e '/^console\( \|$\)/p' >"$room/script"
    "$second" answer <"$room/script" >"$room/want"
    target/compare/lines <"$room/script" >"$room/wrote"
    cmp "$room/want" "$room/wrote" || { echo "c: the script of seed $* is answered otherwise"; exit 1; }
    cat "$room/script" >>"$room/scripts"
    cat "$room/wrote" >>"$room/answers"
}

for seed in 1 2 3 4 5 6; do compared "$seed"; done
compared 7 wide

# Every refusal that a script can meet has to have come up.
for answer in 0 2 3 4 5 6 7 8 yes no; do
    grep -q "^$answer\( \|$\)" "$room/answers" || { echo "c: no message was answered $answer"; exit 1; }
done
target/compare/lines lengths >"$room/lengths" || { cat "$room/lengths"; exit 1; }

echo "c: $(grep -c '^line' "$room/scripts") messages and $(grep -c '^console' "$room/scripts") console questions answered as by the second program; $(cat "$room/lengths")"
