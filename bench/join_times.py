#!/usr/bin/env python3
"""What a message costs a joiner, proved and plain: user time of many messages handed over in turn, less that of none.

join_times.py PROVED PLAIN: the programs take three numbers and a newline, the bytes of each message, the place behind the digit of its number that is raised
by one after each call (0: none is), and how often a message is handed over; then the messages. First what both write is compared, on the messages that are timed
and on feeds of random ones, good and damaged; after each of the first messages, so that every answer and every lent byte is compared."""
import random
import sys

from timing import RUNS, each, run

# Nineteen digits, so that a message keeps its length. A feed has ten messages at most: the last digit tells them apart, and the one before it is raised.
NUMBER = 10**18
DIGIT = len("134,") + 18
FEEDS = 150
FLAGS = ["-", "c", "+", "x"]


def message(i, flag, text, prefix=134):
    return b"%d,%d,0,%s;%s\n" % (prefix, NUMBER + i, flag.encode(), text)


def feed(flags, text):
    return [message(i, flag, text) for i, flag in enumerate(flags)]


def letters(count):
    return bytes(ord("a") + i % 26 for i in range(count))


def escaped(count):
    return b"".join(b"\\x%02x" % (i * 7 % 256) for i in range(count))


CASES = [
    ("'-', no text", feed("-", b""), DIGIT),
    ("'-', 40 bytes", feed("-", letters(40)), DIGIT),
    ("'-', 900 bytes", feed("-", letters(900)), DIGIT),
    ("'-', 900 escaped bytes", feed("-", escaped(900)), DIGIT),
    ("'c', 40 bytes, each 25th gives 960", feed("c", letters(40)), DIGIT),
    ("'c', '+', '+' and '-' in turn, 40 bytes each", feed("c++-", letters(40)), DIGIT),
    ("refused: '-', 40 bytes, late", feed("-", letters(40)), 0),
    ("refused: '-', 900 bytes, late", feed("-", letters(900)), 0),
]


def given(messages, digit, times):
    return b"%d %d %d\n" % (len(messages[0]), digit, times) + b"".join(messages)


def damaged(m):
    at = random.randrange(len(m))
    return m[:at] + random.choice([b"\n", b";", b",", b"\\", b"\0", b"0", b" ", b"="]) + m[at + 1 :]


def random_feed():
    """Messages of one length, of any flag and of facilities with a place and without, some with an entry, some damaged, their numbers now and then not rising."""
    size = random.choice([0, 4, 40, 240, 480, 960, 1200])
    messages = []
    for i in range(random.randrange(1, 11)):
        escapes = random.randrange(size // 4 + 1)
        parts = [escaped(1)] * escapes + [letters(1)] * (size - 4 * escapes)
        random.shuffle(parts)
        text = b"".join(parts)
        if size > 4 and random.randrange(4) == 0:
            text = text[:-6] + b"\n K=vv"
        prefix = random.choice([134] * 6 + [135, 140, 191, 127, 192])
        m = message(random.choice([i] * 9 + [0]), random.choice(FLAGS), text, prefix)
        messages.append(damaged(m) if random.randrange(8) == 0 else m)
    return messages, random.choice([DIGIT] * 9 + [0])


def compare(programs, name, messages, digit, counts):
    for times in counts:
        wrote = [run(program, given(messages, digit, times))[1] for program in programs]
        if wrote[0] != wrote[1]:
            sys.exit(f"{name}, {times} messages: the programs differ: {wrote}; the messages: {messages}")


def main():
    programs = sys.argv[1:3]
    random.seed(960)
    for n in range(FEEDS):
        compare(programs, f"random feed {n}", *random_feed(), [1, 2, 3, 5, 8, 13, 21, 55, 1000])
    print(f"best of {RUNS} runs, user time; the messages, the texts' buffer and the results warm, nothing cleared between calls\n")
    print("| messages | proved | plain | ratio |\n|---|---|---|---|")
    for name, messages, digit in CASES:
        compare(programs, name, messages, digit, [*range(30), 1000])
        cost = [seconds * 1e9 for seconds in each(programs, lambda times: given(messages, digit, times))]
        print(f"| {name} | {cost[0]:,.1f} ns | {cost[1]:,.1f} ns | {cost[0] / cost[1]:.2f} |", flush=True)


main()
