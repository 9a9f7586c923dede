#!/usr/bin/env python3
"""What a read of a full 65,536-byte log costs, proved and plain: user time of many read-throughs, less that of the filling.

read_times.py PROVED PLAIN: both programs take two numbers, the bytes of text in each record and how often the log is read."""
import sys

from timing import RUNS, each, run

CASES = [(0, 32), (40, 72), (960, 992)]


def main():
    programs = sys.argv[1:3]
    print(f"best of {RUNS} runs, user time; buffers warm, the lent buffer not cleared between reads")
    print(f"{'record':>8} {'records':>8} {'proved, us':>11} {'plain, us':>11} {'ratio':>6} {'whole log, ms':>14} {'plain, ms':>10}")
    for text, cost in CASES:
        given = lambda times: f"{text} {times}\n".encode()
        wrote = [run(program, given(3))[1] for program in programs]
        if wrote[0] != wrote[1]:
            sys.exit(f"records of {cost} bytes: the programs differ: {wrote[0]!r} and {wrote[1]!r}")
        records = int(wrote[0].split()[0]) // 3
        whole = [seconds * 1e3 for seconds in each(programs, given)]
        proved, plain = [through / records * 1e3 for through in whole]
        print(f"{cost:>8} {records:>8} {proved:>11.2f} {plain:>11.2f} {proved / plain:>6.2f} {whole[0]:>14.2f} {whole[1]:>10.2f}", flush=True)


main()
