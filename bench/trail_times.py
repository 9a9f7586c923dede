#!/usr/bin/env python3
"""What it costs to save a full log and to read its image back, proved and plain: user time of many saves or read-throughs, less that of none.

trail_times.py PROVED PLAIN: both programs take four numbers, each ended by a newline: the log's capacity, the bytes of text in each record, how often the log
is saved and how often its image is read. A log of half the bytes shows whether the time is linear in them."""
import sys

from timing import RUNS, each, run

TEXTS = [0, 40, 960]
CAPACITIES = [65536, 32768]
CALLS = [("save", lambda times: (times, 0)), ("read", lambda times: (0, times))]


def asked(capacity, text, saves, reads):
    return f"{capacity}\n{text}\n{saves}\n{reads}\n".encode()


def counts(wrote):
    """The bytes of the image, and how many records it has, from what one save and one read wrote."""
    image, read = wrote.splitlines()[1:3]
    return int(image.split()[1]), int(read.split()[0])


def main():
    programs = sys.argv[1:3]
    print(f"best of {RUNS} runs, user time; buffers warm, nothing cleared between calls. 'read' is the whole image, from first to last; a byte is one of the image")
    print(f"{'':<5} {'text':>5} {'capacity':>9} {'records':>8} {'image':>7} {'proved, us':>11} {'plain, us':>10} {'ratio':>6} {'proved, ns a byte':>18} {'plain':>6}")
    for call, often in CALLS:
        for text in TEXTS:
            for capacity in CAPACITIES:
                wrote = [run(program, asked(capacity, text, 1, 1))[1] for program in programs]
                if wrote[0] != wrote[1]:
                    sys.exit(f"texts of {text} bytes in a log of {capacity}: the programs differ: {wrote[0]!r} and {wrote[1]!r}")
                image, records = counts(wrote[0])
                cost = [seconds * 1e6 for seconds in each(programs, lambda times: asked(capacity, text, *often(times)))]
                line = f"{call:<5} {text:>5} {capacity:>9} {records:>8} {image:>7} {cost[0]:>11.2f} {cost[1]:>10.2f} {cost[0] / cost[1]:>6.2f}"
                print(line + f" {cost[0] / image * 1e3:>18.3f} {cost[1] / image * 1e3:>6.3f}", flush=True)


main()
