#!/usr/bin/env python3
"""Lists the places of one point of docs/DESIGN-PASS.md: python3 tools/design_places.py POINT (1 to 8), at the top of the repository.

Each place is printed as `file:line: kind: what`, and at the end the counts: of each kind, of each crate, of all; kinds in brackets are not
in the last two. It goes by form, not by this repository's names: tools/rt_source.py parses the functions. The page says what it can't see.
"""
import collections, glob, itertools, re, sys
sys.dont_write_bytecode = True
from rt_source import INT, KEYWORDS, LITERAL, NAMED, WIDTH, closing, consts, everything, fns, owned, split, structs, texts, tokens, type_of, types

places = []
place = lambda kind, file, line, what: places.append((kind, file, line, what))

def point1():
    for file, line, kind, name, derives, variants in types:
        if kind != "enum":
            continue
        data = [v for v in variants if "(" in v or "{" in v]
        unit = len(variants) - len(data)
        what = f"{name} {{ {', '.join(' '.join(v.split()) for v in variants)} }}"
        if not data or re.search(rf"\bResult<.*\b{name}>", everything):  # an error enum is today's form
            if not all(d in derives for d in ("Debug", "PartialEq", "Eq")):
                place("plain enum without derives", file, line, what)
        elif len(variants) == 2 and unit == 1:
            place("enum of Option's shape", file, line, what)
        elif len(variants) == 2 or len(data) == 1 or unit == 1:
            place("enum of Result's shape", file, line, what)
    for file, line, name, fs in structs:
        for (a, t), nxt in zip(fs, fs[1:] + [("", "")]):
            if t == "bool" and re.match(r"(has|is)_", a) and any(b in a for b, _ in fs if b != a):
                place("flag beside a value", file, line, f"{name}.{a}")
    codes = {}
    for f in fns:
        ends = [x for x in f.leaves if re.fullmatch(LITERAL, x) or re.fullmatch(NAMED, x)]
        small = {x for x in ends if not re.fullmatch(LITERAL, x) or abs(int(x.replace("_", ""))) < 100}
        named = {x for x in ends if re.fullmatch(NAMED, x)}
        lengths = any("length" in c for k, c in f.clauses if k == "ensures")
        if f.ret in INT and not lengths and len(small) >= 2 and small - {"0", "1"} and (len(named) >= 2 and f.ret != "usize" or len(ends) == len(f.leaves)) and len(small) < 10:
            place("function that answers a code", f.file, f.at, f"{f.name} -> {f.ret}: {', '.join(sorted(small))}")
            codes.update(dict.fromkeys(map(owned, named)))
        tests = sorted(set(re.findall(r"(?<![%/*+-] )(?<![\w.])([a-z_][\w.]*) [!=]= (\d+)\b", f.flat)))
        if any(int(b) > 1 and sum(a == c for c, _ in tests) > 1 for a, b in tests):
            place("kind asked by number", f.file, f.at, f"{f.name}: {', '.join(f'{a} == {b}' for a, b in tests)}")
        if f.ret == "bool" and any("Print" in t for _, t in f.params):
            place("bool in place of a Result", f.file, f.at, f.name)
    codes.update(dict.fromkeys(map(owned, re.findall(rf"\w [!=]= ({NAMED})\b", everything))))
    codes.update(dict.fromkeys(map(owned, re.findall(rf"\b(?:[A-Z]\w+::[A-Z][a-z]\w*|refuse\w*|Err)\([^()]*?({NAMED})\)", everything))))
    for file, line, name, t in consts:
        if name in codes and t in INT - {"usize"}:
            place("number for a kind or refusal", file, line, f"{name}: {t}")

def point2():
    groups = collections.defaultdict(list)
    for f in fns:
        if not f.body.strip():
            continue
        seen, names = {}, {a for a, _ in f.params}
        if f.lines >= 2:  # all names and numbers may differ
            key = " ".join(t if t in KEYWORDS else str(seen.setdefault(t, len(seen))) if t[0].isalpha() or t[0] == "_" else "0" if t[0].isdigit() else t for t in tokens(f.body))
        else:  # short: the names of parameters and the types of casts only
            key = " ".join(f"${seen.setdefault(t, len(seen))}" if t in names else t for t in tokens(re.sub(r" as \w+", " as T", f.body)))
        groups[key].append((f.file, f.at, "fn " + f.name))
    shapes = collections.defaultdict(list)
    for file, line, kind, name, _, parts in types:
        part = [re.sub(r"^(pub(\(crate\))? )?\w+:? ?", "", " ".join(p.split())) for p in parts]
        if kind == "enum" and any(part) or kind == "struct" and len(part) >= 3:
            shapes[kind + str(sorted(part) if kind == "enum" else part)].append((file, line, f"{kind} {name}"))
    for (f, l, n, a), (g, m, o, b) in itertools.combinations(structs, 2):  # all fields but one are the same
        rest = set(a) ^ set(b)
        if len(a) == len(b) >= 2 and len(rest) == 2 and (len(a) > 2 or all(x == t.lower() for x, t in rest)):
            shapes[str(sorted(set(a) & set(b)))] += [(f, l, "struct " + n), (g, m, "struct " + o)]
    done = set()
    for n, g in enumerate([g for k, g in itertools.chain(groups.items(), shapes.items()) if len(set(g)) > (2 if k[:3] == "[('" and k.count("(") == 1 else 1)], 1):
        for file, line, what in sorted(set(g) - done):
            place("twin type" if what[0] in "es" else "twin function", file, line, f"{what} (group {n} of {len(set(g))})")
        done |= set(g)

def point3():
    for f in fns:
        for m in re.finditer(r"\b(while|loop)\b([^{]*)\{", f.body):
            body = f.body[m.end():closing(f.body, m.end() - 1) - 1]
            own = lambda v: m[1] == "while" and re.search(rf"(?<![.\w]){v}\b", m[2]) or m[1] == "loop" and re.search(rf"\[[^\]]*\b{v}\b|if {v} (==|<|>)", body)
            counted = []
            for v in sorted(set(re.findall(r"(?<![.\w])(\w+) [+-]= ", body))):
                steps = {x.strip() for x in re.findall(rf"(?<![.\w]){v} [+-]= ([^;]+);", body)}
                step, *more = steps
                fixed = re.fullmatch(r"\d+", step) or re.fullmatch(r"[\w:]+", step) and not re.search(rf"\blet (mut )?{step}\b|\b{step} \S?= ", body)
                if own(v) and not more and fixed and not re.search(rf"(?<![.\w]){v} = ", body):
                    counted.append(f"{v} by {step}")
            line = texts[f.file].count("\n", 0, f.start + 1 + m.start()) + 1
            what = f"{f.name}: {m[1]} {' '.join(m[2].split())}"
            place("index counted by hand" if counted else "(other loop)", f.file, line, what + (f"; {', '.join(counted)}" if counted else ""))

def point4():
    for f in fns:
        p = f.params
        if re.match(r"same|is_same|is_equal|equals?$|eq_", f.name) and not f.in_trait:
            place("equality", f.file, f.at, f.name)
        if re.fullmatch(r"if (\w[\w.]*) <=? (\w[\w.]*) \{ (\1|\2|0|\1 - \2|\2 - \1) \} else \{ (\1|\2|0|\1 - \2|\2 - \1) \}", f.flat):
            place("min, max or saturating_sub", f.file, f.at, f"{f.name}: {f.flat}")
        for m in re.finditer(r"\(([\w':.]+) <= (\w+)\) & \(\2 <= ([\w':.]+)\)", f.flat):
            place("range asked by two comparisons", f.file, f.at, f"{f.name}: {m[0]}")
        if f.ret in INT and len(p) == 1 and p[0][1][:1].isupper() and f.flat.startswith("match ") and not f.in_trait:
            place("conversion by a match", f.file, f.at, f"{f.name}: {p[0][1]} -> {f.ret}")
        elif f.ret in INT and len(p) == 1 and p[0][1] in INT and " as " in f.body and not f.in_trait:
            place("conversion of a number", f.file, f.at, f"{f.name}: {p[0][1]} -> {f.ret}")
        elif f.ret in INT and set(f.leaves) == {"0", "1"} and len(re.findall(r"\b(?:if|match) ", f.flat)) == 1:
            place("bool as a number", f.file, f.at, f.name)
        if re.search(r"\* 256\b|\b256 \*|65536 \*|4294967296 \*|/ 256 [/%]|<< \(8|(\w+) / 256\) as u8|(\w) = \2 / 256;|let n1 = n / 256", f.flat):
            place("little-endian bytes", f.file, f.at, f.name)
        if any("Print" in t for _, t in p) and (len(re.findall(r"\b(?:write_all|print|say|text|number|named)\(", f.body)) >= 2 or re.fullmatch(r"\w+\.(write_all|print)\((\w+|\"\s*\"|b\"\s*\")\)(\.is_ok\(\))?", f.flat)):
            place("printing", f.file, f.at, f.name)
        for m in re.finditer(r"([\w:]+\((?:[\w, ]*)\)) => \1[, ]", f.flat):
            place("copied arm", f.file, f.at, f"{f.name}: {m[0].strip(' ,')}")
        for m in re.finditer(r"\b[A-Z]\w* \{ (?=\w+[,:] )", f.flat):
            kept = collections.Counter()
            for part in split(f.flat[m.end():closing(f.flat, m.end() - 2) - 1]):
                a, _, b = part.partition(": ")
                src = re.search(rf"\blet {re.escape(b or a)} = (\w+)\.{a};", f.flat) or re.fullmatch(rf"(\w+)\.{a}", b)
                kept.update([src[1]] if src else [])
            if kept and max(kept.values()) >= 2:
                place("struct copied field by field", f.file, f.at, f"{f.name}: {max(kept.values())} fields of {kept.most_common(1)[0][0]}")
        for m in re.finditer(r"([\w.:]+(?:\[[^\]]*\])?(?:\([^()]*\))?|\([^()]*(?:\([^()]*\)[^()]*)*\)) as (\w+)", f.flat):
            a, b = type_of(m[1], f), m[2]
            wide = a in WIDTH and b in WIDTH and (WIDTH[a] < WIDTH[b] and a != "usize" and (b != "usize" or WIDTH[a] <= 16))
            place("widening cast" if wide else "(other cast)", f.file, f.at, f"{f.name}: {m[0]}" + (f", from {a}" if a else ""))

def point5():
    facts = collections.defaultdict(set)
    for f in fns:
        for kind, c in f.clauses:
            for part in re.split(r" × ", c) if kind == "requires" else []:
                facts[re.sub(r"^\((.*)\)$", r"\1", part).replace(".old", ".now")].add((f.file, f.at, f.name))
    for fact, where in sorted(facts.items(), key=lambda x: -len(x[1])):
        for file, line, name in sorted(where) if len(where) >= 3 else []:
            place("fact in three or more contracts", file, line, f"{name}: {fact} ({len(where)} functions)")
    sets = {}
    for f, g in itertools.combinations(fns, 2):
        common = frozenset(f.params) & frozenset(g.params)
        if len(common) >= 3:
            sets.setdefault(common, None)
    for s in sets:
        sets[s] = [f for f in fns if s <= frozenset(f.params)]
    for s, where in sorted(sets.items(), key=lambda x: (-len(x[0]) * len(x[1]), str(sorted(x[0])))):
        new = [f for f in where if not any(p[:3] == ("parameters that travel together", f.file, f.at) for p in places)]
        for f in new if len(where) >= 3 else []:
            place("parameters that travel together", f.file, f.at, f"{f.name}: {', '.join(sorted(a for a, _ in s))} ({len(where)} functions)")

def point6():
    for file, line, name, fs in structs:
        stems = collections.Counter(re.sub(r"\d+$", "", a) for a, _ in fs if re.search(r"\d$", a))
        for stem, n in stems.items():
            if n >= 3:
                place("numbered fields", file, line, f"{name}: {n} of {stem}N")
        if any(t.startswith("[") for _, t in fs) and any(a in ("count", "len", "length", "size", "n") for a, _ in fs):
            place("array beside its length", file, line, name)
        ends = [a for a, t in fs if t == "usize" and re.fullmatch(r"(\w+_)?(from|to|end|begin|size|at|count)", a)]
        if len(ends) >= 2:
            place("indices in place of a slice", file, line, f"{name}: {', '.join(ends)}")
    for f in fns:
        if len(set(re.findall(r"\blet [a-z]+\d = ", f.body))) >= 3:
            place("numbered locals", f.file, f.at, f.name)
        for a in re.findall(r"\blet mut (\w+) = \[", f.body):
            for n in sorted(set(re.findall(rf"(?:front|first)\(&(?:mut )?{a}, (?!\d+\))([^()]+)\)|&{a}\[\.\.([^\]]+)\]", f.flat))):
                place("local buffer beside its length", f.file, f.at, f"{f.name}: {a}, {n[0] or n[1]}")
        for (a, t), (b, u) in zip(f.params, f.params[1:]):
            if re.search(r"\[u?\w+(; .*)?\]$", t) and u == "usize" and re.fullmatch(r"n|size|count|len|length|most|digits|used|bytes|kept", b):
                place("slice beside its length", f.file, f.at, f"{f.name}: {a}, {b}")

def point7():
    for f in fns:
        for m in re.finditer(r"\bmatch ([^{]+) \{", f.flat):
            arms = re.findall(r"((?:b?'[^']*'|\d+)(?: \| b?'[^']*')*|_) => (?:\{ )?([\w:]+)\(", f.flat[m.end():closing(f.flat, m.end() - 1)])
            if len({c for _, c in arms}) >= 2 and any(a != "_" for a, _ in arms) and not all(c.split("::")[-1][0].isupper() for _, c in arms):
                place("switch on a byte or number", f.file, f.at, f"{f.name}: match {m[1]}: {', '.join(c for _, c in arms)}")
        chain = re.findall(r"if (\w+) == \d+ \{ return (\w+)\(", f.flat)
        if len(chain) >= 2:
            place("chain of tests", f.file, f.at, f"{f.name}: {', '.join(c for _, c in chain)}")
        if m := re.fullmatch(r"if (\w+) \{ (\w+)\([^{}]*\) \} else \{ (\w+)\([^{}]*\) \}", f.flat):
            if m[2] != m[3] and (m[1], "bool") in f.params:
                place("switch on a flag", f.file, f.at, f"{f.name}: {m[2]}, {m[3]}")

def point8():
    for file in sorted(glob.glob("crates/*/proofs/**/*.antt", recursive=True)):
        s = "\n".join(l.split("--")[0] for l in open(file, encoding="utf-8").read().split("\n"))
        n, last = len(re.findall(r"^\s*pub \S+ : goal\.", s, re.M)), file.split("/")[-1]
        if last in ("Answers.antt", "Invariants.antt"):
            places.extend([("answered goal" if last[0] == "A" else "(invariant)", file, 1, "goals")] * max(n, last[0] == "I"))
        elif last != "Lib.antt":
            places.extend([("lemma of a helper file", file, 1, "public lemmas")] * len(re.findall(r"^\s*pub (?!use\b|record\b|data\b)", s, re.M)))

if __name__ == "__main__":
    globals()["point" + sys.argv[1]]()
    for (kind, file, line, what), n in sorted(collections.Counter(places).items()):
        print(f"{file}:{line}: {kind}: {what}" + (f" ({n} times)" if n > 1 else ""))
    for title, key in (("kinds", lambda p: p[0]), ("crates, without the kinds in brackets", lambda p: p[1].split("/")[1] if p[0][0] != "(" else None)):
        print(f"-- {title}: " + ", ".join(f"{k} {n}" for k, n in sorted(collections.Counter(map(key, places)).items(), key=lambda x: str(x[0])) if k))
    print("-- all, without the kinds in brackets:", sum(p[0][0] != "(" for p in places))
