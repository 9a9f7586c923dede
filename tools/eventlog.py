#!/usr/bin/env python3
"""Renames the crate log to eventlog: the kit has a library of the old name.

usage: python3 tools/eventlog.py [FOLDER]      once, at the top of the repository, behind tools/respell.py
"""

import os
import re
import sys


def main():
    top = os.path.abspath(sys.argv[1] if len(sys.argv) > 1 else ".")
    os.rename(os.path.join(top, "crates", "log"), os.path.join(top, "crates", "eventlog"))
    turns = [
        (re.compile(r"\bRattle\.log\b"), "Rattle.eventlog"),
        (re.compile(r"(?<![\w.])log::"), "eventlog::"),
        (re.compile(r"\bcrates/log\b"), "crates/eventlog"),
    ]
    pages = re.compile(r"`log/(specs|src|proofs|must-fail)")
    count = 0
    for folder, dirs, names in os.walk(top):
        dirs[:] = [d for d in dirs if d not in (".git", "out", "target", "bench", "compare")]
        for n in names:
            if not n.endswith((".rt", ".antt", ".edit", ".md", ".txt")) or n == "PORT.md":
                continue
            p = os.path.join(folder, n)
            with open(p, encoding="utf-8", newline="") as f:
                text = f.read()
            new = text
            if n == "crates.txt":
                new = "\n".join(x if x.startswith("#") else re.sub(r"(?<!\S)log(?=:|\s|$)", "eventlog", x) for x in text.split("\n"))
            else:
                for pattern, to in turns:
                    new = pattern.sub(to, new)
                if n.endswith(".md"):
                    new = pages.sub(r"`eventlog/\1", new)
            if new != text:
                count += 1
                with open(p, "w", encoding="utf-8", newline="") as f:
                    f.write(new)
    print(f"eventlog: {count} files")


if __name__ == "__main__":
    main()
