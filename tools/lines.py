#!/usr/bin/env python3
"""Lines of code, specs and proofs of each crate, as a table; files that a build left are not counted."""
from pathlib import Path

top = Path(__file__).resolve().parent.parent


def lines(folder, pattern):
    return sum(len(path.read_text().splitlines()) for path in folder.rglob(pattern) if path.is_file())


names = [line.split(":")[0].split()[0] for line in (top / "crates.txt").read_text().splitlines() if line.strip()]
rows = [
    (name, lines(crate / "src", "*.rt"), lines(crate / "specs", "*.antt"), lines(crate / "proofs", "*.antt"))
    for name in names
    for crate in [top / "crates" / name]
]
rows.append(("all", *(sum(row[i] for row in rows) for i in (1, 2, 3))))
print("| crate | code | specs | proofs |\n|---|---|---|---|")
for row in rows:
    print("| {} | {:,} | {:,} | {:,} |".format(*row))
