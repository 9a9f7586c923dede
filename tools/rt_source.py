"""The sources crates/*/src/*.rt, parsed as far as tools/design_places.py needs it: functions, types, constants."""
import glob, re

WIDTH = {"bool": 1, "u8": 8, "u16": 16, "u32": 32, "u64": 64, "usize": 63, "i32": 32, "i64": 64}  # usize: From goes up to u16 only
INT = set(WIDTH) - {"bool"}
KEYWORDS = set("if else match let mut while loop return break continue for in as ref self Self true false".split())


def blank(m):
    return "".join(c if c in "\n\"" else " " for c in m[0])


def closing(s, i):  # the place behind the bracket that closes the one at i
    depth = 0
    for j in range(i, len(s)):
        depth += (s[j] in "([{") - (s[j] in ")]}")
        if depth == 0:
            return j + 1


def split(s):  # at the commas outside brackets
    parts, depth, last = [], 0, 0
    for j, c in enumerate(s):
        depth += (c in "([{<") - (c in ")]}" or (c == ">" and s[j - 1] not in "-=" ))
        if c == "," and depth == 0:
            parts.append(s[last:j].strip()); last = j + 1
    return [p for p in parts + [s[last:].strip()] if p]


class Fn:
    def __init__(self, file, s, m, in_trait):
        self.file, self.name, self.at, self.in_trait, self.clauses = file, m[1], s.count("\n", 0, m.start()) + 1, in_trait, []
        i = s.index("(", m.end()); j = closing(s, i)
        self.params = [tuple(x.strip() for x in re.sub(r"^mut ", "", p).split(":", 1)) for p in split(s[i + 1:j - 1]) if ":" in p]
        k = re.compile(r"\b(requires|ensures)\b|[{;](?![^\[\]{}]*\])").search(s, j)  # not the ; of an array type
        self.ret = s[j:k.start()].replace("->", "").strip()
        while k and k[1]:
            b = s.index("{", k.end()); e = closing(s, b)
            self.clauses.append((k[1], " ".join(s[b + 1:e - 1].split())))
            k = re.compile(r"\b(requires|ensures)\b|[{;]").search(s, e)
        self.start = k.start()
        self.body = s[k.start() + 1:closing(s, k.start()) - 1] if k[0] == "{" else ""
        self.lines = len([l for l in self.body.split("\n") if l.strip()])
        flat = " ".join(self.body.split())
        self.leaves = [a.strip() for a in re.findall(r"return ([^;{}]+);|=> ([\w:-]+)[,} ]|[{;}] ([\w:-]+) (?=\})|^([\w:-]+)$|\} ([\w:]+)$|; ([\w:]+)$",
                                                     flat + " ") for a in a if a] + re.findall(r"[;}] ([\w:]+)$", flat)
        self.flat = flat


fns, types, consts, texts = [], [], [], {}
for file in sorted(glob.glob("crates/*/src/*.rt")):
    s = open(file, encoding="utf-8").read()
    s = re.sub(r"^ghost use [^;]*;", blank, re.sub(r"//[^\n]*|b?\"(?:\\.|[^\"\\])*\"", blank, s), flags=re.M)
    s = re.sub(r"'(\\.|[^'\\])'", lambda m: "'" + "x" * len(m[1]) + "'", s)
    texts[file] = s
    impls = [(m.start(), closing(s, s.index("{", m.end())), m[1].strip()) for m in re.finditer(r"\bimpl\b(?:<[^>]*>)? ?([^{;]*)", s)]
    fns += [Fn(file, s, m, any(a < m.start() < b and " for " in t for a, b, t in impls)) for m in re.finditer(r"\bfn\s+(\w+)", s)]
    for m in re.finditer(r"((?:#\[derive\(([^)]*)\)\]\s*)?)(?:pub(?:\(crate\))? )?\b(enum|struct)\s+(\w+)[^{;(]*\{", s):
        types.append((file, s.count("\n", 0, m.end()) + 1, m[3], m[4], m[2] or "", split(s[m.end():closing(s, m.end() - 1) - 1])))
    consts += [(file, s.count("\n", 0, m.start()) + 1, "".join(t + "::" for a, b, t in impls if a < m.start() < b) + m[1], m[2]) for m in re.finditer(r"\bconst (\w+): (\w+) =", s)]
structs = [(f, l, n, [tuple(x.strip() for x in re.sub(r"^pub(\(crate\))? ", "", p).split(":", 1)) for p in fs]) for f, l, k, n, d, fs in types if k == "struct"]
pairs = {p for _, _, _, fs in structs for p in fs}
fields = {a: b for a, b in pairs if sum(a == c for c, _ in pairs) == 1}
returns = {f.name: f.ret for f in fns}
everything = "\n".join(texts.values())
LITERAL, NAMED = r"-?\d[\d_]*", r"(?:\w+::)*[A-Z][A-Z0-9_]+"


def owned(name):  # a constant of a type keeps the type's name, one of a module loses the module's
    *path, last = name.split("::")
    return f"{path[-1]}::{last}" if path and path[-1][0].isupper() else last


def tokens(s):
    return re.findall(r"[A-Za-z_]\w*|\d\w*|'[^']*'|\"|[^\s\w]", s)


def type_of(x, f, depth=0):
    x = x.strip()
    if depth > 3:
        return ""
    if x.endswith(".len()"):
        return "usize"
    if x.endswith("]"):
        return "u8" if any("u8" in t for a, t in f.params if a == x.split("[")[0]) else ""
    if re.fullmatch(NAMED, x) and any(n == owned(x) for _, _, n, _ in consts):
        return next(t for _, _, n, t in consts if n == owned(x))
    if m := re.search(r"(\w+)\([^()]*\)$", x):
        return returns.get(m[1], "")
    if "." in x:
        of = type_of(x.rsplit(".", 1)[0], f, depth + 1)  # the struct whose field it is; else any that alone has such a field
        own = [dict(fs) for _, _, n, fs in structs if n == of] or [fields]
        return own[0].get(x.split(".")[-1], "u64" if x.endswith(".0") else "")
    local = re.search(rf"\blet (?:mut )?{x}: (\w+)", f.body) if re.fullmatch(r"\w+", x) else None
    guess = re.search(rf"\blet {x} = ([^;]+);", f.body) if re.fullmatch(r"\w+", x) else None
    return dict(f.params).get(x) or (local[1] if local else type_of(guess[1], f, depth + 1) if guess and guess[1] != x else "")
