#!/usr/bin/env python3
"""Lists the places of the design pass in crates/*/src, a line each: POINT (of the table in docs/DESIGN-PASS.md) kind file:line text.

    python3 tools/places.py [COMMIT]     the files of a commit, else those of the working tree
    python3 tools/places.py -c [COMMIT]  only the counts, a line for each point and kind
"""
import collections
import re
import subprocess
import sys

args = [a for a in sys.argv[1:] if a != "-c"]
counts_only = "-c" in sys.argv[1:]
commit = args[0] if args else None


def git(*words):
    return subprocess.run(["git", *words], capture_output=True, text=True, check=True).stdout


def sources():
    if commit:
        names = git("ls-tree", "-r", "--name-only", commit, "crates").split()
        return [(n, git("show", f"{commit}:{n}")) for n in names if "/src/" in n and n.endswith(".rt")]
    names = git("ls-files", "-co", "--exclude-standard", "crates").split()
    return [(n, open(n).read()) for n in names if "/src/" in n and n.endswith(".rt")]


# What one line shows.
LINES = [
    (1, "a unit variant beside values, as Option's None", r"^\s+(Nothing|Stay|Nil|Missing),$"),
    (1, "a field that is a flag", r"^\s+(pub(\(\w+\))? )?\w+: bool,$"),
    (1, "a number for a kind or a refusal", r"fn (number|kind)\b.*-> u8"),
    (1, "a match that repeats a method of Option or Result",
     r"(None => None\b|None => (return )?Err\(|None => Ok\(|None => 0\b|Err\(\w+\) => (return )?Err\(|Err\(_\) => None"
     r"|Some\(_\) => Ok|if let Err\(\w+\) = |Some\(\w+\) => Ok\(\w+\),|Err\(_\) => return false|None => \w+::none\(\))"),
    (1, "a refusal written out, with its own kind around it", r"Err\(Trouble::Unclear\("),
    (3, "a loop over indices", r"for \w+ in (0|after)\.\."),
    (3, "a loop that counts by hand", r"(while \w+ > |^\s+\w+ (\+|-)= 1;$)"),
    (3, "a loop over next or over a rest", r"while let (Some\(.*\.next\(\)|\[)"),
    (4, "a conversion, a comparison or printing by hand",
     r"fn (\w+_text|hex_digit|rule_of|same_bytes|is_zero|number_of|slot_of|vacated|write_header|read_header|decode_header"
     r"|put_header|is_digits|is_ours|copied|count_of|joined\w*)\b"),
    (4, "a least or greatest by hand", r"if \w+ (<|>|==) [\w:]+ \{ [^}]+ \} else \{"),
    (6, "a table of fixed size in a struct", r"^\s+(pub(\(\w+\))? )?\w+: \[\w+; \d+\],"),
    (6, "a length or a count beside memory", r"^\s+(pub(\(\w+\))? )?(len|used|count|front): (usize|u16),"),
    (6, "a search in a list by hand", r"if self\.items\[i\]\.key >= "),
    (7, "a step chosen by text", r"if verb == "),
    (7, "a step chosen by its kind", r"Step::(Made|Over|Stay) =>|OrderKind::\w+ => serve"),
]


def functions(text):
    """(line, name, head, body) of each function with a body."""
    for m in re.finditer(r"^( *)(pub(?:\(\w+\))? )?(?:const )?fn (\w+)", text, re.M):
        rest = text[m.start():]
        end = re.search(rf"^{m.group(1)}\}}$", rest, re.M)
        opens = [x for x in re.finditer(r"(^| )\{$|(?<=\)) \{$|;$", rest, re.M)]
        if not end or not opens or opens[0].group().endswith(";"):
            continue
        at = opens[0].end()
        yield text.count("\n", 0, m.start()) + 1, m.group(3), rest[:opens[0].start()], rest[at:end.start()]


def parameters(head):
    inner = re.search(r"\((.*?)\)\s*(->|requires|ensures|$|\n)", head, re.S)
    text = re.sub(r"<[^<>]*>", "", inner.group(1)) if inner else ""
    return [w for w in re.findall(r"(\w+): ", text)]


found = []
pairs = collections.defaultdict(list)
facts = collections.defaultdict(list)
shapes = collections.defaultdict(list)
for name, text in sources():
    crate = name.split("/")[1]
    for i, line in enumerate(text.split("\n"), 1):
        for point, kind, pattern in LINES:
            if not line.lstrip().startswith("//") and re.search(pattern, line):
                found.append((point, kind, f"{name}:{i}", line.strip()))
    for i, fn, head, body in functions(text):
        where = f"{name}:{i}"
        if re.search(r"-> bool\b", head) and "&mut " in head.split("->")[0]:
            found.append((1, "a call that changes and answers a flag", where, fn))
        ps = [p for p in parameters(head) if p not in ("rt", "heap", "store", "session", "echo", "lines", "words", "verb")]
        for a in range(len(ps)):
            for b in range(a + 1, len(ps)):
                pairs[crate, ps[a], ps[b]].append(f"{where} {fn}")
        for clause in re.findall(r"requires (?:\w+ )?\{ (.*?) \}$", head, re.M):
            facts[crate, re.sub(r"\b\w+\.(old|now)\b", "_", clause)].append(f"{where} {fn}")
        tokens = re.findall(r"\w+|[^\s\w]", re.sub(r"//.*", "", body))
        shape = tuple("0" if t.isdigit() else "x" if re.match(r"[A-Za-z_]\w*$", t) else t for t in tokens)
        if len(shape) >= 7:
            shapes[crate, shape].append((where, fn))

for (crate, a, b), where in sorted(pairs.items()):
    if len(where) >= 3:
        found.append((5, "two parameters that travel together", f"crates/{crate}", f"{a}, {b}: {len(where)} functions"))
for (crate, fact), where in sorted(facts.items()):
    if len(where) >= 3:
        found.append((5, "a fact asked in three contracts or more", f"crates/{crate}", f"{fact}: {len(where)} functions"))
for (crate, _), where in sorted(shapes.items(), key=lambda kv: kv[1]):
    if len(where) >= 2:
        found.append((2, "bodies that differ in names and numbers only", where[0][0], ", ".join(fn for _, fn in where)))

found.sort(key=lambda f: (f[0], f[1], f[2]))
if counts_only:
    for (point, kind), n in sorted(collections.Counter((f[0], f[1]) for f in found).items()):
        print(f"{point}  {n:4}  {kind}")
    for point, n in sorted(collections.Counter(f[0] for f in found).items()):
        print(f"point {point}: {n}")
else:
    for f in found:
        print(f"{f[0]} [{f[1]}] {f[2]} {f[3]}")
