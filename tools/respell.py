#!/usr/bin/env python3
"""Spells the definitions and lemmas of this repository as today's Rattle spells its own: types and facts in camel case, all else in snake case.

usage: respell.py [TOP]      (run once, after port.py; it prints the names that it changed, old and new)

It reads specs/ and proofs/ of every crate, finds the names declared there (top level, fields of records, constructors of data), and
renames each where it is in scope: in the file that declares it, and in files that import it. A field is renamed behind a dot, in a
record literal, and where it is declared. Names that Rattle makes (goals, steps) stay, as do names of src/, strings and comments.
"""
import collections
import glob
import os
import re
import sys

TOP = sys.argv[1] if len(sys.argv) > 1 else "."
os.chdir(TOP)
CRATES = [line.split(":")[0].split()[0] for line in open("crates.txt") if line.strip() and not line.startswith("#")]
WORD = r"[^\s(){}.;,@\"«»]+"
TOKEN = re.compile(WORD)
USE = re.compile(r"\buse Rattle\.([^\s;{]+?)(?:\.?\{([^}]*)\}| as (\S+)|(?=;|[ \t]*$))", re.M)
HEAD = re.compile(r"^(?:(?:abbrev|unfoldable|pub|mutual) )*((?:data|record) (?:pub )?)?(" + WORD + r")(?= )")
FIELD = re.compile(r"^\s+(?:pub )?((?:" + WORD + r" )+):")
# Names that would fall together with another when respelled, and three that port.py gave a capital although they are no facts.
GIVEN = {
    "Leaf-place": "FindsLeafPlace",
    "Child-place": "FindsChildPlace",
    "drop-child": "drop_child_lem",
    "rule-of": "rule_of_lem",
    "Holds-after": "holds_after",
    "No-page": "no_page",
    "None-found": "none_found",
}
# generated: the answers, invariants and measures that Rattle asks for
MADE = re.compile(r"^(?:abbrev )?(?:pub )?(" + WORD + r") : goal\.")


def is_type(declared):
    """Says whether a declaration gives a type or a fact: its last result is a Type."""
    return re.search(r"(→|:) Type 0\s*(where)?\s*$", declared.strip()) is not None


def snake(name):
    """In snake case; a prime stays, and an upper-case word of its own (a fact's) does too."""
    parts = name.split("-")
    parts = [re.sub(r"(?<=[a-z0-9])([A-Z])(?=[a-z])", lambda m: "_" + m[1].lower(), p) for p in parts]
    return "_".join(parts)


def camel(name):
    parts = re.split("[-_]", name)
    return parts[0] + "".join(p[:1].upper() + p[1:] for p in parts[1:])


def respelled(name, kind):
    if name in GIVEN:
        return GIVEN[name]
    if kind == "type":
        return camel(name)
    if name[:1].isupper():
        # a lemma that begins with a fact's name: the fact, a dash, and words
        head, _, rest = name.partition("-")
        return head + "-" + snake(rest) if rest else name
    return snake(name)


def code_of(line, mark):
    """The part of a line before its comment, and the comment."""
    place = line.find(mark)
    if place < 0:
        return line, ""
    return line[:place], line[place:]


def declared_in(text):
    """Yields (name, kind, is_field) of each name that a file of antt declares."""
    made = {m[1] for m in map(MADE.match, text.split("\n")) if m}
    inside = None
    lines = text.split("\n")
    # what stands in a mutual block or a section is read as if it stood outside
    blocks = 0
    for at, line in enumerate(lines):
        if not line.strip() or line.strip().startswith("--"):
            continue
        indent = len(line) - len(line.lstrip())
        blocks = min(blocks, indent // 2)
        lines[at] = line[2 * blocks:]
        if re.match(r"(abbrev |unfoldable )?mutual\b|(pub )?module \S", lines[at]):
            blocks += 1
            lines[at] = "--"
    for at, line in enumerate(lines):
        line = code_of(line, "--")[0].rstrip()
        if re.match(r"\S", line):
            inside = None
            m = HEAD.match(line + " ")
            if not m or m[2] in made or m[2] in ("use", "unfolding", "open", "module", "pub", "ruleset", "mod"):
                continue
            if m[1]:
                inside = m[1].split()[0]
                yield m[2], "type", False
                continue
            if re.match(r"^(?:(?:abbrev|unfoldable|pub|mutual) )*" + re.escape(m[2]) + r" :($| )", line):
                whole = line
                for more in lines[at + 1:]:
                    if not re.match(r"\s+\S", more):
                        break
                    whole += " " + more.strip()
                yield m[2], "type" if is_type(whole) else "word", False
        elif inside:
            m = FIELD.match(line)
            if m and not re.match(r"^\s{4,}", line):
                for name in m[1].split():
                    if name != "pub":
                        yield name, "word", inside == "record"


def sources():
    for crate in CRATES:
        for end in ("antt", "rt"):
            yield from sorted(glob.glob(f"crates/{crate}/**/*.{end}", recursive=True))


FILES = [f for f in sources() if "/out/" not in f]
TEXT = {f: open(f).read() for f in FILES}
NEW = collections.defaultdict(dict)  # file -> old name -> new name, declared there
FIELDS = {}
for f in FILES:
    if not f.endswith(".antt"):
        continue
    for name, kind, is_field in declared_in(TEXT[f]):
        new = respelled(name, kind)
        if is_field and new != name:
            FIELDS[name] = new
        if new != name:
            NEW[f][name] = new


def file_of(path):
    """The file of antt that a path Rattle.CRATE.(specs|proofs).A.B names, or None; a type's own module is its file's."""
    parts = path.split(".")
    if parts[0] not in CRATES or len(parts) < 3:
        return None
    parts = [p for p in parts if p]
    while len(parts) >= 3:
        f = f"crates/{parts[0]}/{'/'.join(parts[1:])}.antt"
        if f in TEXT:
            return f
        parts.pop()
    return None


def types_in_path(m):
    """A path of a use line with the types in it respelled."""
    known = NEW.get(file_of(m[0]), {})
    return ".".join(known.get(step, step) for step in m[0].split("."))


def scope_of(f, text):
    table = dict(NEW.get(f, {}))
    for path, names, alias in USE.findall(text):
        if path.split(".")[0] not in CRATES:
            continue
        known = dict(NEW.get(file_of(path), {}))
        # a file may pass names on that it imports itself
        for name in [n.strip() for n in names.split(",")]:
            old = name.split(" as ")[0].strip()
            if old in known:
                table[old] = known[old]
            if " as " in name:
                own = name.split(" as ")[1].strip()
                new = respelled(own, "type" if own[:1].isupper() else "word")
                if new != own:
                    table[own] = new
        alias = alias or path.split(".")[-1]
        if alias != "goal" and not names:
            for old, new in known.items():
                table[alias + "." + old] = new
    return table


def turned(f, text, table):
    mark = "--" if f.endswith(".antt") else "//"
    out = []
    for line in text.split("\n"):
        code, comment = code_of(line, mark)
        code = re.sub(r"(?<=\buse Rattle\.)[^\s;{]+", types_in_path, code)

        def turn(m):
            word, start = m[0], m.start()
            if start and code[start - 1] == ".":
                before = re.search(r"(" + WORD + r")\.$", code[:start])
                if before and before[1] + "." + word in table:
                    return table[before[1] + "." + word]
                if before and before[1] == "goal":
                    return word
                return FIELDS.get(word, word)
            if word in table:
                return table[word]
            # a field in a record literal or an open line
            if word in FIELDS and (re.match(r"\s*=(?!=)", code[m.end():]) or re.match(r"\s+:", code[m.end():]) and re.search(r"record \{", code)):
                return FIELDS[word]
            return word

        out.append(TOKEN.sub(turn, code) + comment)
    return "\n".join(out)


def main():
    changed = {}
    for f in FILES:
        table = scope_of(f, TEXT[f])
        tokens = set(TOKEN.findall("\n".join(code_of(x, "--" if f.endswith(".antt") else "//")[0] for x in TEXT[f].split("\n"))))
        for old, new in table.items():
            rivals = [o for o, n in table.items() if n == new and o != old and "." not in o]
            if "." not in old and (new in tokens or rivals):
                print(f"falls together: {f}: {old} -> {new} {rivals}")
        changed[f] = turned(f, TEXT[f], table)
    for edit in sorted(glob.glob("crates/*/must-fail/*.edit")):
        text = open(edit).read()
        crate = edit.split("/")[1]
        target = re.search(r"^file: (\S+)", text, re.M)
        source = f"crates/{crate}/{target[1]}" if target else None
        if source in TEXT:
            table = scope_of(source, TEXT[source])
            lines = [turned(source, x, table) if x.startswith(("old:", "new:")) else x for x in text.split("\n")]
            changed[edit] = "\n".join(lines)
    for f, text in changed.items():
        if text != (TEXT.get(f) if f in TEXT else open(f).read()):
            with open(f, "w") as out:
                out.write(text)
    for f in sorted(NEW):
        for old, new in NEW[f].items():
            print(f"{f}: {old} -> {new}")


main()
