#!/usr/bin/env python3
"""A night of writes with callers, as a script of calls, and what a receiver shows of its lines.

night_lines.py script          a script: writes of several nights' kinds, and behind each of them a read of its line
night_lines.py lines ANSWERS   of the script's answers the lines, as a receiver gets them
night_lines.py shown           what a receiver writes for them, worked out from the writes alone (document 01, "The receiving end")
"""
import sys


def writes():
    """Facility, level, time, text, dictionary, fragment, caller; the numbers come from 0 on. A late clock, texts that are escaped, entries, and every
    fifth write of a facility without a channel."""
    step = 1
    for n in range(700):
        step = step * 1103515245 + 12345 & 0x7FFFFFFF
        facility = 16 + step // 65536 % 8 if n % 5 else step // 65536 % 16
        caller = (0, 1, 4711, 2**32 - 1, step)[n % 5 if n % 11 else 3]
        time = 10**9 * (700 - n if n % 7 == 0 else n) + n
        text = (b"%d-%d" % (n % 9, n // 9 % 9), b"GOAL home %d, away" % n, b"caf\xe9\\;,caller=9", b"", b"line\nline")[n % 5 if n % 13 else 2]
        dictionary = b"HALF=%d\0BY=a=b" % (n % 2 + 1) if n % 6 == 0 else b""
        yield facility, step % 8, time, text, dictionary, n % 4 == 1, caller


def hexed(b):
    return b.hex() or "-"


def script():
    yield "log 65536 0"
    yield "reader"
    for facility, level, time, text, dictionary, fragment, caller in writes():
        yield f"box {facility} {level} {time} {hexed(text)} {hexed(dictionary)} {int(fragment)} {caller}"
        yield "read 0 5000"


def lines(answers):
    for answer in answers:
        words = answer.split()
        if len(words) == 3:
            yield bytes.fromhex(words[2])


def escaped(text):
    return "".join(chr(b) if 32 <= b <= 126 and b != 92 else f"\\x{b:02x}" for b in text)


def shown():
    channels, refused = {}, 0
    for number, (facility, _, _, text, _, _, _) in enumerate(writes()):
        if 16 <= facility <= 23:
            channels[facility] = (number, escaped(text))
        else:
            refused += 1
    for facility in sorted(channels):
        yield "%d %d %s" % (facility, *channels[facility])
    yield f"refused {refused}"


if sys.argv[1] == "script":
    print("\n".join(script()))
elif sys.argv[1] == "shown":
    print("\n".join(shown()))
else:
    sys.stdout.buffer.write(b"".join(lines(open(sys.argv[2]))))
