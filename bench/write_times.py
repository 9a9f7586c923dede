#!/usr/bin/env python3
"""What a write from outside costs, proved and plain: user time of many writes of one message to one log, less that of none.

write_times.py PROVED PLAIN [EARLIER]: the programs take two numbers and a newline, the log's capacity and how often the message is written, and then the
message. With an earlier build of the proved program its time stands beside, and the ratio to it; where its headings are shorter, its log holds more records of
100 bytes."""
import sys

from timing import RUNS, each, run


def letters(count):
    return bytes(ord("a") + i % 26 for i in range(count))


CASES = [
    ("960 bytes, full log of 65,536", 65536, letters(960)),
    ("960 bytes, full log of 16,384", 16384, letters(960)),
    ("960 bytes, full log of 1,024", 1024, letters(960)),
    ("100 bytes, full log of 65,536", 65536, letters(100)),
    ("100 bytes, full log of 1,024", 1024, letters(100)),
    ("refused, a zero as the last of 960, empty log of 65,536", 65536, letters(959) + b"\0"),
]


def main():
    programs = sys.argv[1:4]
    earlier = len(programs) == 3
    print(f"best of {RUNS} runs, user time; the log's buffer and the message warm, nothing cleared between writes")
    print(f"{'':<56} {'proved, ns':>11} {'plain, ns':>11} {'ratio':>6}" + (f" {'earlier, ns':>12} {'ratio':>6}" if earlier else ""))
    for name, capacity, message in CASES:
        given = lambda times: b"%d %d\n" % (capacity, times) + message
        wrote = [run(program, given(1000))[1] for program in programs[:2]]
        if wrote[0] != wrote[1]:
            sys.exit(f"{name}: the programs differ: {wrote[0]!r} and {wrote[1]!r}")
        cost = [seconds * 1e9 for seconds in each(programs, given)]
        line = f"{name:<56} {cost[0]:>11.1f} {cost[1]:>11.1f} {cost[0] / cost[1]:>6.2f}"
        print(line + (f" {cost[2]:>12.1f} {cost[0] / cost[2]:>6.2f}" if earlier else ""), flush=True)


main()
