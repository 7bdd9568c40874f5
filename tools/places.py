#!/usr/bin/env python3
"""Lists the places in src/ that docs/DESIGN-PASS.md counts, point by point.

python3 tools/places.py [-v] [FOLDER]    counts, or with -v each place, in the crates of FOLDER (here, if none is named)
python3 tools/places.py OLD NEW          how many places of OLD are found, gone and kept in NEW, and how many of NEW are new
"""
import collections
import itertools
import pathlib
import re
import sys

ARGS = [a for a in sys.argv[1:] if a != "-v"]
SHOW = "-v" in sys.argv
HERE = pathlib.Path(__file__).resolve().parent.parent

BY_HAND = re.compile(r"eq|ne|lt|cmp|clone|tag|default|fmt|from|from_\w+|to_\w+|into_\w+|notice|shown|read|write|say|put_\w+")
CLAUSE = re.compile(r"^\s*(?:pub )?(ensures|requires|ghost)\b(.*)$")
HEAD = re.compile(r"^(\s*)(?:pub(?:\(crate\))? )?(?:final )?fn ([a-z_0-9]+)")


def sources(root):
    return sorted(root.glob("crates/*/src/*.rt"))


def name_of(root, path):
    return path.relative_to(root / "crates").as_posix()


def functions(root):
    """Each function: its file, its line, the impl that it stands in, its name, its signature, its clauses and its body."""
    for path in sources(root):
        inside = ""
        lines = path.read_text().split("\n")
        for i, line in enumerate(lines):
            if re.match(r"^(impl|pub trait|trait)\b", line):
                inside = line
            elif line.startswith("}"):
                inside = ""
            head = HEAD.match(line)
            if not head:
                continue
            text = []
            for k in range(i, len(lines)):
                text.append(lines[k])
                if k > i and re.match("^" + head[1] + r"\}", lines[k]) or lines[k].endswith("{}"):
                    break
                if lines[k].endswith("};") or lines[k].endswith(";") and k == i:
                    break
            clauses = [" ".join(c[2].split()) for c in map(CLAUSE.match, text) if c]
            code = [t for t in text if not CLAUSE.match(t)]
            yield name_of(root, path), i + 1, inside, head[2], text, clauses, "\n".join(code)


def canonical(code):
    """The code with types, numbers and the digits of names put aside."""
    code = re.sub(r"//.*", "", code)
    code = re.sub(r"\b[A-Z][A-Za-z0-9]*(::<[^()]*?>)?\b", "T", code)
    code = re.sub(r"\b\d[\w.]*\b", "0", code)
    code = re.sub(r"\b(u8|u16|u32|u64|usize|i32|i64|f64)\b", "t", code)
    code = re.sub(r"([a-z_])\d+\b", r"\1", code)
    code = re.sub(r"\s+", " ", code)
    return re.sub(r"\b(\w+), (?:\1, )+", r"\1, ", code)


def grep(root, pattern):
    wanted = re.compile(pattern)
    for path in sources(root):
        for i, line in enumerate(path.read_text().split("\n")):
            if wanted.search(line) and not line.lstrip().startswith("//"):
                yield f"{name_of(root, path)}:{i + 1}: {line.strip()}"


def groups(keyed, least):
    found = collections.defaultdict(list)
    for key, place in keyed:
        found[key].append(place)
    return {k: v for k, v in found.items() if len(v) >= least}


def place(f):
    owner = re.search(r"(?:for )?([A-Z]\w*)(?:<[^{]*)?\s*\{?$", f[2].split(" where")[0])
    return f"{f[0]}:{f[1]} {(owner[1] + '::') if owner else ''}{f[3]}"


def twins(every):
    same = groups(((canonical(f[6]), place(f)) for f in every), 2)
    sized = groups(
        (((re.sub(r"\d", "", f[0]).split("/")[0], re.sub(r"\d", "", f[2]), re.sub(r"\d", "", f[3]),), place(f)) for f in every
         if re.search(r"\d", f[2] + f[3])), 2)
    return [v for v in same.values()], [v for v in sized.values()]


def facts(every):
    def shape(clause):
        return re.sub(r"\b\d+\b", "0", re.sub(r'"[^"]*"', '""', clause))
    return groups(((shape(c), place(f)) for f in every for c in set(f[5]) if len(c) > 30), 3)


def together(every):
    keyed = []
    for f in every:
        sign = re.search(r"\((.*?)\)\s*(->|$|\{)", " ".join(f[6].split("{")[0].split()))
        if not sign:
            continue
        params = sorted(set(re.findall(r"\b([a-z_0-9]+): [^,]+", sign[1])))
        keyed += [((a, b), place(f)) for a, b in itertools.combinations(params, 2)]
    return groups(keyed, 3)


def points(root):
    every = list(functions(root))
    same, sized = twins(every)
    return [
        ("1 enums", list(grep(root, r"\benum\b"))),
        ("1 numbers for kinds", list(grep(root, r"\b(code|kind|number|status|state|flag)\b *: *(Option<)?(u8|u16|u32|usize|i32)\b"))),
        ("1 flags in results", list(grep(root, r"-> .*(\(.*\bbool\b.*\)|Result<bool)"))),
        ("1 a value with its size", list(grep(root, r"-> .*\(.*, usize\)"))),
        ("2 functions alike but for types and numbers: groups", [" = ".join(g) for g in same]),
        ("2 functions of one name but for its digits: groups", [" = ".join(g) for g in sized]),
        ("3 loops over a range, while and loop", list(grep(root, r"^\s*(for .* in .*\.\.|while |loop\b)"))),
        ("4 by hand: eq, from_, to_, fmt and the like", [place(f) for f in every if BY_HAND.fullmatch(f[3])]),
        ("5 facts in three contracts or more", [f"{len(v)} {k}" for k, v in facts(every).items()]),
        ("5 parameters together in three functions or more", [f"{len(v)} {' '.join(k)}" for k, v in together(every).items()]),
        ("6 arrays", list(grep(root, r"\[[^\[\]]*; *(\d[\d_]*|[A-Z]\w*)\]"))),
        ("7 matches", list(grep(root, r"\bmatch\b"))),
        ("7 function pointers and dyn", list(grep(root, r"\bdyn\b|: fn\("))),
    ]


def count(root):
    for title, places in points(root):
        print(f"{len(places):4}  {title}")
        if SHOW:
            for p in places:
                print("        " + p)
    proofs = list(root.glob("crates/*/proofs/**/*.antt"))
    answers = [p for p in proofs if p.name == "Answers.antt"]
    print(f"{len(proofs):4}  8 proof files, {sum(len(p.read_text().splitlines()) for p in proofs)} lines")
    print(f"{sum(len(re.findall(r'^pub .* : goal', p.read_text(), re.M)) for p in answers):4}  8 answers")


def named(title, places):
    """The places by their names, without lines of the file. Groups that both counts of twins show are one."""
    if title.startswith("2"):
        return "2 twins", {tuple(sorted(set(re.sub(r":\d+ ", " ", p) for p in g.split(" = ")))) for g in places}
    return title, [re.sub(r"^(\S+?):\d+:? ", r"\1 ", p) for p in places]


def beside(old, new):
    both = []
    for root in (old, new):
        found = collections.defaultdict(collections.Counter)
        for title, places in points(root):
            title, names = named(title, places)
            found[title] |= collections.Counter(names)
        both.append(found)
    print("found  gone  kept   new")
    for title, a in both[0].items():
        b = both[1][title]
        print(f"{a.total():5} {(a - b).total():5} {(a & b).total():5} {(b - a).total():5}  {title}")


if len(ARGS) == 2:
    beside(*map(pathlib.Path, ARGS))
else:
    count(pathlib.Path(ARGS[0]) if ARGS else HERE)
