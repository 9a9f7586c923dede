#!/usr/bin/env python3
"""Brings this repository's own definitions and lemmas to today's spelling: words in snake case, a dash only where it joins two names.

usage: python3 tools/respell.py [FOLDER]      once, at the top of the repository, behind the kit's port.py

It goes by text. A name is turned where an .antt file below crates/ declares it, everywhere: in specs/, proofs/, the clauses of src/, the
must-fail edits and the pages. Names that start with a capital stay, and so does whatever the kit's own libraries give a file by an import.
What falls together is printed, and nothing is written then.
"""

import os
import re
import sys

TOKEN = r"[^\s(){}\[\],;.`\"]+"
DECLARED = re.compile(rf"^[ \t]*(?:(?:pub|abbrev|unfoldable)[ \t]+)*({TOKEN})[ \t]*:(?=\s)", re.M)
OUTSIDE = re.compile(r"^\s*(?:pub |ghost |unfoldable )*use (?!Rattle\.(?!std\b))[^\s{;]*(?:\.\{([^}]*)\})?", re.M)
HUMP = re.compile(r"(?<=[a-z0-9])(?=[A-Z])")
# Where two names fall together, the definition has the name, and the lemma gets "_lem"; two definitions are told apart here.
APART = {"byHand": "set_by_hand", "called-by": "leaves_called", "next-by": "turned_by"}
# Lemmas that the kit's script turned before this one, each with the crate in which a definition gets its name.
LEMMAS = {"count_most": "syslog", "bytes_on": "joiner", "kept_by": "writes", "number_fits": "feed", "read_done": "kmsg", "wrong_byte": "message"}


def files(top, ends, skip=()):
    for folder, dirs, names in os.walk(top):
        dirs[:] = sorted(d for d in dirs if d not in ("out", ".git", "target"))
        for n in sorted(names):
            if n.endswith(ends) and n not in skip:
                yield os.path.join(folder, n)


def read(path):
    with open(path, encoding="utf-8", newline="") as f:
        return f.read()


def words(name):
    return "_".join(w.lower() if w[0].isupper() and not w.isupper() else w for w in HUMP.split(name))


def plain(name):
    """A lower-case name without humps; a name that starts with a capital is a type or a fact, and stays."""
    return name if name[:1].isupper() else words(name)


def main():
    top = os.path.abspath(sys.argv[1] if len(sys.argv) > 1 else ".")
    crates = os.path.join(top, "crates")
    declared, specified = set(), set()
    for p in files(crates, ".antt", ("Proof.antt",)):
        text = "\n".join(line.split("--")[0] for line in read(p).split("\n"))
        for m in DECLARED.finditer(text):
            declared.add(m[1])
            if "/specs/" in p:
                specified.add(m[1])
    known = {plain(n) for n in specified} | set(
        "append length take drop map filter reverse replicate get set sets sum cons nil true false not and or cond suc zero add sub mul div mod pow min max "
        "eqb leb ltb ap sym subst rw".split())

    def respelled(name):
        if name in APART:
            return APART[name]
        if not re.search(r"\w-\w|[a-z0-9][A-Z]", name):
            return name
        parts = [plain(x) for x in re.split(r"(?<=\w)-(?=\w)", name)]
        out = parts[0]
        for left, right in zip(parts, parts[1:]):
            out += ("-" if left in known and right in known else "_") + right
        return out

    turned = {n: respelled(n) for n in declared}
    turned = {n: t for n, t in turned.items() if n != t}
    together = {}
    for n, t in turned.items():
        together.setdefault(t, set()).add(n)
    bad = False
    for t, ns in sorted(together.items()):
        dashed = [n for n in ns if "-" in n]
        if len(ns) > 1 or t in declared:
            print(f"together: {' '.join(sorted(ns | ({t} & declared)))} -> {t}" + "".join(f", {n} -> {t}_lem" for n in dashed))
            bad = bad or len(dashed) > 1 or len(ns) - len(dashed) > 1 or (dashed and t + "_lem" in declared)
            turned.update((n, t + "_lem") for n in dashed)
    if bad:
        return 1

    one = re.compile(TOKEN)
    count = 0
    for p in [*files(crates, (".antt", ".rt", ".edit")), *files(os.path.join(top, "docs"), ".md", ("PORT.md",)), os.path.join(top, "README.md")]:
        text = read(p)
        keep = set()
        if p.endswith(".antt"):
            for m in OUTSIDE.finditer(text):
                for it in (m[1] or "").split(","):
                    keep.update(it.split(" as ")[-1].split())
        crate = os.path.relpath(p, crates).split(os.sep)[0]
        here = {n: n + "_lem" for n, c in LEMMAS.items() if c == crate and p.endswith(".antt")}
        if p.endswith((".md", ".edit")):
            # Names that the kit's script turned in the .antt files alone.
            for m in set(one.findall(text)) - set(turned):
                t = respelled(m)
                if t != m and (t in declared or t.replace("-", "_") in declared) and m not in declared:
                    here[m] = t if t in declared else t.replace("-", "_")
        new = one.sub(lambda m: m[0] if m[0] in keep else turned.get(m[0]) or here.get(m[0], m[0]), text)
        if new != text:
            count += 1
            with open(p, "w", encoding="utf-8", newline="") as f:
                f.write(new)
    print(f"respell: {len(turned)} names, {count} files")
    return 0


if __name__ == "__main__":
    sys.exit(main())
