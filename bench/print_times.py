#!/usr/bin/env python3
"""What it costs to print a number, and the header of a line, proved and plain: user time of many passes over the same numbers, less that of none.

print_times.py NEW EARLIER PLAIN: two builds of the proved program, and the plain one, whose argument is its printer, `table` or `write`. All take numbers, each
ended by a newline: 1 (numbers) or 4 (headers), how often, and the numbers themselves."""
import random
import sys

from timing import RUNS, each, run

NUMBERS = 8000
HEADERS = 2047
BUFFER = 262144
NAMES = ["new", "earlier", "table", "write"]
WORDS = 2**64
PREFIXES = 2048
CALLERS = 2**32


def digits(draw, length, below=WORDS):
    """A number of so many digits, all equally likely."""
    return draw.randrange(10 ** (length - 1) if length > 1 else 0, min(10**length, below))


def mixed(draw, most=20, below=WORDS):
    """A number of up to so many digits, all lengths equally likely."""
    return digits(draw, draw.randint(1, most), below)


def number(length):
    return lambda draw: (digits(draw, length),)


def mixed_number(draw):
    return (mixed(draw),)


def header(draw):
    """A prefix of any facility and level, so mostly of 3 or 4 digits; 7 digits; 13 digits of microseconds; a caller of 4 digits."""
    return draw.randrange(256) * 8 + draw.randrange(8), digits(draw, 7), digits(draw, 16), digits(draw, 4)


def mixed_header(draw):
    time = mixed(draw, 17, WORDS // 1000) * 1000 + draw.randrange(1000)
    return mixed(draw, 4, PREFIXES), mixed(draw), time, mixed(draw, 10, CALLERS)


CASES = [
    ("1 digit", NUMBERS, number(1)),
    ("2 digits", NUMBERS, number(2)),
    ("3 digits", NUMBERS, number(3)),
    ("4 digits", NUMBERS, number(4)),
    ("7 digits", NUMBERS, number(7)),
    ("13 digits", NUMBERS, number(13)),
    ("20 digits", NUMBERS, number(20)),
    ("1 to 20 digits, mixed", NUMBERS, mixed_number),
    ("headers: 1-4, 7, 13 and 4 digits", HEADERS, header),
    ("headers of mixed lengths", HEADERS, mixed_header),
]


def printed(row):
    """What is printed of one number or four."""
    if len(row) == 1:
        return str(row[0])
    prefix, sequence, time, caller = row
    return f"{prefix},{sequence},{time // 1000},-,caller={caller};\n"


def main():
    new, earlier, plain = sys.argv[1:4]
    programs = [new, earlier, [plain, "table"], [plain, "write"]]
    print(f"best of {RUNS} runs, user time; ns for a number, or for a header. A pass is {NUMBERS:,} numbers or {HEADERS:,} headers, one behind the other")
    print(f"from the front of one buffer of {BUFFER:,} bytes; the buffer and the numbers warm, nothing cleared between passes. 'bytes' are those of a pass")
    print(f"{'':<32} {'bytes':>8}" + "".join(f" {name:>8}" for name in NAMES) + "".join(f" {'new/' + name:>12}" for name in NAMES[1:]))
    for case, count, make in CASES:
        draw = random.Random(case)
        rows = [make(draw) for _ in range(count)]
        numbers = "".join(f"{value}\n" for row in rows for value in row)
        given = lambda times: f"{len(rows[0])}\n{times}\n{numbers}".encode()
        right = "".join(map(printed, rows))
        for name, program in zip(NAMES, programs):
            if run(program, given(2))[1] != right:
                sys.exit(f"{case}: what '{name}' writes is not what Python's str() makes of the numbers")
        cost = [seconds / count * 1e9 for seconds in each(programs, given)]
        line = f"{case:<32} {len(right):>8}" + "".join(f" {ns:>8.2f}" for ns in cost)
        print(line + "".join(f" {cost[0] / ns:>12.2f}" for ns in cost[1:]), flush=True)


main()
