#!/usr/bin/env python3
"""The table of docs/PLANTED_BUGS.md, made of the lines that tools/plant.py wrote: tools/planted.py FILE.."""
import json
import sys
from collections import Counter, defaultdict

rows = [json.loads(line) for name in sys.argv[1:] for line in open(name)]
crates = defaultdict(list)
for row in rows:
    if row["verdict"] != "no source":
        crates[row["crate"]].append(row)
print("| crate | tried | refused | told by what it prints | recipes | neither |\n|---|---|---|---|---|---|")
for crate, tried in crates.items():
    lives = [r for r in tried if r["verdict"] == "lives"]
    told = [r for r in tried if r["verdict"] == "told"]
    recipes = ", ".join(f"{n} {k}" for k, n in sorted(Counter(r["recipe"] for r in tried).items(), key=lambda x: -x[1]))
    print(f"| `{crate}` | {len(tried)} | {len(tried) - len(told) - len(lives)} | {len(told)} | {recipes} | {len(lives)} |")
print()
for row in rows:
    if row["verdict"] == "lives":
        print(f"- `{row['crate']}` {row['file']}:{row['line']}, {row['recipe']}: `{row['old']}` as `{row['new']}`")
