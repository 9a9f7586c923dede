#!/usr/bin/env python3
"""What a command of syslog(2) costs on a full 65,536-byte log, proved and plain: user time of many commands, less that of the filling.

command_times.py PROVED PLAIN [EARLIER]: the programs take six numbers, the bytes of text in each record, after how many of them each is a newline (0: none is),
the log's capacity, the command's type, its len, and how often it is asked. With an earlier build of the proved program its time stands beside where no text has
a newline: only there it copies the same bytes. It must have headings of the same size, or its log holds other records."""
import sys

from timing import RUNS, each, run

CAPACITY = 65536
HEADING = 32
ALL = 460000
COPIED = [(0, 0), (40, 0), (960, 0), (40, 10), (960, 40), (960, 8), (960, 1)]
COUNTED = [(0, 0), (40, 0), (960, 0), (40, 10), (960, 40)]
READ = [(40, 0), (960, 0), (40, 10), (960, 40)]
CASES = (
    [("3, all of it", 3, ALL, *text) for text in COPIED]
    + [("3, the last 1,000 bytes", 3, 1000, *text) for text in [(40, 0), (960, 40)]]
    + [("9", 9, 0, *text) for text in COUNTED]
    + [("2, the next 100 bytes", 2, 100, *text) for text in READ]
    + [("10", 10, 0, *text) for text in [(40, 0), (960, 40)]]
)
COLUMNS = ["command", "text", "a newline every", "records", "answer", "proved", "plain", "ratio"]


def row(cells):
    print("| " + " | ".join(cells) + " |", flush=True)


def duration(seconds):
    return f"{seconds * 1e9:,.0f} ns" if seconds < 1e-6 else f"{seconds * 1e6:,.2f} us"


def main():
    programs = sys.argv[1:4]
    columns = COLUMNS + (["earlier", "ratio to it"] if len(programs) == 3 else [])
    print(f"best of {RUNS} runs, user time; the log's buffer and the lent buffer warm, nothing cleared between commands\n")
    row(columns)
    row(["---"] * len(columns))
    for name, command, length, text, every in CASES:
        given = lambda times: f"{text} {every} {CAPACITY} {command} {length} {times}\n".encode()
        here = programs if every == 0 else programs[:2]
        wrote = [run(program, given(3))[1] for program in here]
        if len(set(wrote)) > 1:
            sys.exit(f"command {command}, {text} bytes of text, a newline every {every}: the programs differ: {wrote}")
        answer = int(wrote[0].split()[0]) // 3
        cost = each(here, given)
        ratios = [f"{cost[0] / other:.2f}" for other in cost[1:]]
        cells = [name, f"{text} bytes", str(every) if every else "none", f"{CAPACITY // (HEADING + text):,}", f"{answer:,}"]
        cells += [duration(cost[0]), duration(cost[1]), ratios[0]]
        row(cells + ([duration(cost[2]), ratios[1]] if len(here) == 3 else [""] * (len(columns) - len(cells))))


main()
