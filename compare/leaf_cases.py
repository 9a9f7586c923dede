#!/usr/bin/env python3
"""What crates/leaves writes for the leaf crates, worked out from document 01 with Python's own numbers and strings, and zlib's CRC-32."""
import re
import sys
import zlib

WORD = 2**64 - 1
out = []


def decimal_cases():
    for n in (0, 9, 10, 999, 2**32, 10**19 - 1, 10**19, WORD):
        out.append(f"decimal {n}")
    for n in (10**k + d for k in range(20) for d in (-1, 0, 1)):
        out.append(f"decimal {n}")
    out.append("decimal in 19 bytes no room")
    # T10, and T1's time
    out.append("T10 999 ns 0")
    out.append("T10 1000 ns 1")
    out.append("T10 5000999 ns 5000")
    for s in ("0", "9", "10", "999", "4294967296", "9999999999999999999", "18446744073709551615", "", "00", "01", "+1", "1 ",
              "18446744073709551616", "18446744073709551620", "99999999999999999999", "100000000000000000000",
              "184467440737095516160000000000000000000001", "184467440737095516160000000000000000000001x"):
        if not re.fullmatch(r"0|[1-9][0-9]*", s):
            said = "not plain"
        else:
            said = str(int(s)) if int(s) <= WORD else "above"
        out.append(f"read {s}: {said}")


def escape_cases():
    # "Bytes 32 to 126 other than '\\' stand as they are; any other byte is \\x and two lower-case hex digits."
    for b in range(256):
        form = chr(b) if 32 <= b <= 126 and chr(b) != "\\" else f"\\x{b:02x}"
        out.append(f"byte {b} {form} {b}")
    for s in ("\\x41B\\x43", "\\x5c", "\\", "\\x4", "\\X41", "\\x4A", "abcdefgh", "abcdefghi"):
        if not re.fullmatch(r"(?:[ -\[\]-~]|\\x[0-9a-f]{2})*", s):
            said = " misshapen"
        else:
            plain = re.sub(r"\\x([0-9a-f]{2})", lambda m: chr(int(m.group(1), 16)), s)
            said = " no room" if len(plain) > 8 else "".join(f" {ord(c)}" for c in plain)
        out.append(f"unescape {s}:{said}")


def ring_cases():
    size, new = 7, "XYZ"
    for start in range(size):
        for used in range(size + 1):
            ring = list("abcdefg")
            if used + len(new) > size:
                out.append(f"ring {start} {used}: no room")
                continue
            for i, c in enumerate(new):
                ring[(start + used + i) % size] = c
            straight = "".join(ring[(start + i) % size] for i in range(used + len(new)))
            out.append(f"ring {start} {used}: {''.join(ring)} {straight}")


def crc_cases():
    room, made, n = 1101, bytearray(), 1
    for _ in range(room):
        n = n % 2**32 * 1664525 + 1013904223
        made.append(n // 2**24 % 256)
    out.append(f"crc digits 9 {zlib.crc32(b'123456789')}")
    for what, given, step in (("zeros", bytes(room), 99), ("ones", b"\xff" * room, 99), ("made", bytes(made), 1)):
        for length in range(0, room, step):
            out.append(f"crc {what} {length} {zlib.crc32(given[:length])}")


decimal_cases()
escape_cases()
ring_cases()
crc_cases()
sys.stdout.write("\n".join(out) + "\n")
