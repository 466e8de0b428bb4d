#!/usr/bin/env python3
"""Counts the places in src/ that a pass on design looks at, by the points of docs/DESIGN-PASS.md.

    python3 tools/places.py [COMMIT] [-v]

Without COMMIT the files as they stand; -v lists each place. It goes by text: what it finds is to be read.
"""
import re
import subprocess
import sys
from collections import defaultdict

commit = next((a for a in sys.argv[1:] if not a.startswith("-")), None)
verbose = "-v" in sys.argv


def run(*words):
    return subprocess.run(words, capture_output=True, text=True, check=True).stdout


def files(pattern):
    if commit:
        names = run("git", "ls-tree", "-r", "--name-only", commit).split("\n")
    else:
        names = run("git", "ls-files", "-co", "--exclude-standard").split("\n")
    for name in sorted(n for n in names if re.fullmatch(pattern, n)):
        try:
            yield name, run("git", "show", f"{commit}:{name}") if commit else open(name).read()
        except FileNotFoundError:
            pass


sources = list(files(r"crates/[^/]+/src/.*\.rt"))
answers = list(files(r"crates/[^/]+/proofs/.*Answers\.antt"))
lemmas = list(files(r"crates/[^/]+/proofs/[^/]*\.antt"))

FN = re.compile(r"^( *)(pub(?:\([a-z]+\))? )?fn (\w+)(.*?(?:;\n|^\1\}$))", re.S | re.M)
functions = []  # (file, line, name, head, clauses, body)
for name, text in sources:
    for m in FN.finditer(text):
        whole = m.group(0)
        # the body begins at the first line that is only the brace, or behind the result
        parts = re.split(r"^ *\{$|\{\n", whole, maxsplit=1, flags=re.M)
        head = parts[0]
        body = parts[1] if len(parts) > 1 else ""
        clauses = re.findall(r"^ *(?:requires|ensures)(?: \w+)? \{ (.*?) \};?$", head, re.M | re.S)
        signature = re.split(r"^ *(?:requires|ensures)", head, maxsplit=1, flags=re.M)[0]
        signature = signature[signature.index("fn " + m.group(3)):]
        line = text[: m.start()].count("\n") + 1
        functions.append((name, line, m.group(3), signature, clauses, body))


def lines(pattern, keep=lambda l: True):
    for name, text in sources:
        for n, l in enumerate(text.split("\n"), 1):
            if re.search(pattern, l) and not l.lstrip().startswith("//") and keep(l):
                yield f"{name}:{n}: {l.strip()}"


def shape(body):
    code = re.sub(r"//.*", "", body)
    tokens = re.findall(r"b?'[^']*'|\"[^\"]*\"|\w+|[^\s\w]", code)
    words = {"let", "mut", "for", "in", "if", "else", "match", "return", "while", "Some", "None", "Ok", "Err", "as", "true", "false"}
    return " ".join(t if t in words or not re.match(r"[\w'\"b]", t) else "x" for t in tokens), len(tokens)


points = {}


def point(key, title, found):
    points[key] = (title, list(found))


point("1a", "a number as the error of a Result", lines(r"Result<.*, (u8|u32|u64|usize)>"))
point("1b", "a function without parameters that answers a number", lines(r"fn \w+\(\) -> u(8|32|64|size)"))
point("1c", "a number or a letter as a kind", lines(r"\b(kind|wrap)\b: (&?)(u8|u32|usize)"))
point("1d", "a number as flags or as yes and no", lines(r"\b(flags|strict|commonjs)\b: u\d+"))
point("1e", "a bool beside other fields", lines(r"^    (pub )?\w+: bool,"))
point("1f", "own enums (to be read: of the shape of Option or Result?)", lines(r"\benum \w+"))

groups = defaultdict(list)
for name, line, fn, signature, clauses, body in functions:
    s, n = shape(body)
    if n >= 8:
        groups[s].append(f"{name}:{line}: {fn}")
point("2a", "functions of one shape", [p for g in groups.values() if len(g) > 1 for p in g])
structs = defaultdict(list)
for name, text in sources:
    for m in re.finditer(r"struct (\w+)[^{;]*\{(.*?)\n\}", text, re.S):
        fields = tuple(sorted(re.findall(r"^    (?:pub )?(\w+): ", m.group(2), re.M)))
        structs[m.group(1)] = (name, set(fields))
pairs = []
for a in sorted(structs):
    for b in sorted(structs):
        if a < b and len(structs[a][1] & structs[b][1]) >= max(2, 0.6 * min(len(structs[a][1]), len(structs[b][1]))):
            pairs.append(f"{structs[a][0]}: {a} and {structs[b][0]}: {b} share {', '.join(sorted(structs[a][1] & structs[b][1]))}")
point("2b", "pairs of types that share most of their fields", pairs)

point("3a", "while and loop", lines(r"\b(while|loop)\b"))
point("3b", "for over a range", lines(r"\bfor \w+ in .*\.\."))

point("4a", "conversions by a method or a function of their own", lines(r"fn (number|fields|field|widened|\w*letter|to_\w+|as_\w+|export_of|site_of|symbol_of|module_info|entry_info|is_same|same_\w+)\("))
point("4b", "impls of From, Display and comparisons by hand", lines(r"impl.* (From<.*>|TryFrom<.*>|Display|fmt::Display|PartialEq|Ord|PartialOrd) for"))
point("4c", "types without a derived comparison", (
    f"{name}: {m.group(2)}" for name, text in sources
    for m in re.finditer(r"((?:^#\[.*\]\n)*)^(?:pub(?:\(crate\))? )?(?:struct|enum) (\w+)", text, re.M) if "PartialEq" not in m.group(1)))

clause_users = defaultdict(set)
for name, line, fn, signature, clauses, body in functions:
    for c in clauses:
        clause_users[re.sub(r"\s+", " ", c)].add(f"{name}:{line}: {fn}")
point("5a", "clauses that stand in three or more contracts", (f"{len(u)} times: {c}" for c, u in sorted(clause_users.items(), key=lambda x: -len(x[1])) if len(u) >= 3))
together = defaultdict(set)
for name, line, fn, signature, clauses, body in functions:
    inner = re.search(r"\((.*)\)", signature, re.S)
    ps = [re.sub(r"\s+", " ", p).strip() for p in re.split(r",(?![^<(\[]*[>)\]])", inner.group(1))] if inner else []
    ps = [p for p in ps if ":" in p]
    for i, a in enumerate(ps):
        for b in ps[i + 1:]:
            together[(a, b)].add(f"{name}:{line}: {fn}")
point("5b", "pairs of parameters that stand side by side in three or more functions", (f"{len(u)} times: {a}, {b}" for (a, b), u in sorted(together.items(), key=lambda x: -len(x[1])) if len(u) >= 3))
point("5c", "facts joined in one requires", lines(r"requires.*×"))

point("6a", "arrays with a fixed number of elements", lines(r"\[[^\[\]]+; [\w+ ]+\]"))
point("6b", "look-ups by hand", lines(r"if \w+ < \w+\.len\(\)"))
point("6c", "numbers that index lent words (fields and parameters)", lines(r"\b(at|rows|marks|queue|firsts|numbers|starts|barred|to|from): usize"))

point("7", "pointers, dyn, and a number that says which step", lines(r"\bfn\(|\bdyn\b|match \w*(step|phase|stage)"))

goals = [f"{name}: {g}" for name, text in answers for g in re.findall(r"^(?:pub )?(\S+) : goal\.", text, re.M)]
point("8a", "answers", goals)
point("8b", "lemmas and definitions in proofs/", (f"{name}: {g}" for name, text in lemmas for g in re.findall(r"^(?:pub )?([^\s:]+) :", text, re.M)))

for key, (title, found) in points.items():
    print(f"{key:3} {len(found):4}  {title}")
    if verbose:
        for f in found:
            print("          " + f)
