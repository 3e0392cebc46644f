#!/usr/bin/env python3
"""Draws docs/crates.svg from crates.txt: a crate stands above every crate that it depends on; an arrow for each dependency that no
longer path shows. Run from the top of the project."""
import re

lines = [re.sub(r"#.*", "", line).strip() for line in open("crates.txt")]
deps = {}
for line in filter(None, lines):
    name, _, rest = line.partition(":")
    deps[name.split()[0]] = rest.split()
deps = {n: [d for d in ds if d in deps] for n, ds in deps.items()}

def height(n, seen={}):
    if n not in seen:
        seen[n] = 1 + max((height(d) for d in deps[n]), default=-1)
    return seen[n]

def reached(n, seen={}):
    if n not in seen:
        seen[n] = set(deps[n]).union(*[reached(d) for d in deps[n]])
    return seen[n]

direct = {n: [d for d in ds if not any(d in reached(e) for e in ds)] for n, ds in deps.items()}
rows = {}
for n in deps:
    rows.setdefault(height(n), []).append(n)
wide, tall, gap = 116, 26, 62
width = max(len(r) for r in rows.values()) * (wide + 14) + 20
top = max(rows)
at = {}
for h, names in sorted(rows.items()):
    names.sort(key=lambda n: (sum(at[d][0] for d in direct[n] if d in at) / max(1, len(direct[n])), n))
    step = width / len(names)
    for i, n in enumerate(names):
        at[n] = (step * i + step / 2, (top - h) * gap + 20)
out = [f'<svg xmlns="http://www.w3.org/2000/svg" viewBox="0 0 {width:.0f} {top * gap + 60}" font-family="sans-serif" font-size="13">',
       '<rect width="100%" height="100%" fill="white"/>']
for n, ds in direct.items():
    for d in ds:
        (x, y), (u, v) = at[n], at[d]
        out.append(f'<path d="M{x:.0f} {y + tall:.0f} C{x:.0f} {y + tall + 24:.0f} {u:.0f} {v - 24:.0f} {u:.0f} {v:.0f}" fill="none" stroke="#9ab"/>')
for n, (x, y) in at.items():
    out.append(f'<rect x="{x - wide / 2:.0f}" y="{y:.0f}" width="{wide}" height="{tall}" rx="4" fill="#eef4fa" stroke="#567"/>')
    out.append(f'<text x="{x:.0f}" y="{y + 18:.0f}" text-anchor="middle">{n}</text>')
out.append("</svg>")
open("docs/crates.svg", "w").write("\n".join(out) + "\n")
