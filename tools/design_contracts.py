#!/usr/bin/env python3
"""Writes the last part of docs/DESIGN-PASS.md: each public signature, clause and definition that changed, old and new.

    python3 tools/design_contracts.py COMPARED.json

COMPARED.json is what the kit's port/contracts.py prints with --json for a tree of the commit that the page begins with and this one.
Where a clause is the old one but for the place in which a value stands now (RENAMED), only the function's name is written.
"""
import json
import pathlib
import re
import sys
import textwrap

ROOT = pathlib.Path(__file__).resolve().parent.parent
PAGE = ROOT / "docs/DESIGN-PASS.md"
BEGIN = "## Public signatures, clauses and definitions, old and new\n"

# where a value stands now, and what it was called
RENAMED = [
    (r"(?:setup\.now\.program|game\.now\.program|program\.now)\.(code|lengths|class)", r"\1.now"),
    (r"(?:setup\.now\.program|game\.now\.program|program\.now)\.(threads|starting)", r"\1"),
    (r"(?:setup|game)\.now\.(left|masks|tails)", r"\1.now"),
    (r"game\.now\.(set|shape)", r"\1"),
]


def old_names(text):
    for pattern, name in RENAMED:
        text = re.sub(pattern, name, text)
    return re.sub(r"\s+", " ", text)


def public():
    """The public functions of the sources, by crate and name."""
    found = set()
    for f in ROOT.glob("crates/*/src/**/*.rt"):
        if "tarczolin_c" in f.parts:
            continue
        for name in re.findall(r'^\s*pub (?:extern "C" )?fn (\w+)', f.read_text(), re.M):
            found.add((f.relative_to(ROOT / "crates").parts[0], name))
    return found


def block(lines):
    out = ["```"]
    for mark, text in lines:
        text = re.sub(r"\s+", " ", text).strip()
        out += textwrap.wrap(text, 104, initial_indent=mark + " ", subsequent_indent="      ", break_long_words=False, break_on_hyphens=False)
    return out + ["```"]


def clauses(pairs, kind):
    return [(f"{kind} {name}".strip(), text) for name, text in pairs]


def main():
    told = json.loads(pathlib.Path(sys.argv[1]).read_text())
    known = public()
    signatures = {k: (old, new) for k, old, new in told["signatures changed"]}
    contracts = {k: ((req, ens), (req2, ens2)) for k, req, ens, req2, ens2 in told["contracts changed"]}
    moved, parts = [], []
    for key in sorted(set(signatures) | set(contracts)):
        crate, path, name = key.split(" ")
        if (crate, name.split("::")[-1]) not in known:
            continue
        lines = []
        if key in signatures:
            old, new = signatures[key]
            if re.sub(r"\bmut |[\s,]", "", old) != re.sub(r"\bmut |[\s,]", "", new):
                lines += [("-", f"fn {name}{old}"), ("+", f"fn {name}{new}")]
        same = True
        if key in contracts:
            (req, ens), (req2, ens2) = contracts[key]
            before = [("requires " + n, t) for n, t in req] + [("ensures " + n, t) for n, t in ens]
            after = [("requires " + n, t) for n, t in req2] + [("ensures " + n, t) for n, t in ens2]
            kept = [(n, old_names(t)) for n, t in after]
            for n, t in before:
                if (n, old_names(t)) not in kept:
                    same = False
                    lines.append(("-", f"{n} {{ {t} }}"))
            gone = [(n, old_names(t)) for n, t in before]
            for n, t in after:
                if (n, old_names(t)) not in gone:
                    same = False
                    lines.append(("+", f"{n} {{ {t} }}"))
        taken = key in signatures and re.search(r"(program: &Compiled|setup: &Setup|game: &Game)", signatures[key][1])
        if same and taken and "->" in signatures[key][0] and signatures[key][0].split("->")[1].strip() == signatures[key][1].split("->")[-1].strip():
            moved.append(f"`{crate}::{name}`")
        elif lines:
            parts.append((f"`{crate}`, `{path}`: `{name}`", lines))
    out = [BEGIN]
    out += textwrap.wrap(
        "Written by `python3 tools/design_contracts.py`, from what the kit's `port/contracts.py` tells. A function that is not public to "
        "other crates does not stand here, nor one whose contract is the same.", 108)
    out += ["", "### Clauses that are the old ones, of values that stand in one struct now", ""]
    out += textwrap.wrap(
        "`code.now`, `lengths.now`, `class.now`, `threads` and `starting` are fields of `program: &Compiled`; `left.now` and `masks.now` are "
        "fields of `setup: &Setup`, which has the program too; `tails.now`, `masks.now`, `set` and `shape` are fields of `game: &Game`. "
        "Where class was a parameter, the program's classes are those that name a group. Nothing is asked of the other fields.", 108)
    out += [""] + textwrap.wrap(", ".join(moved) + ".", 108, break_long_words=False, break_on_hyphens=False)
    out += ["", "### Signatures and clauses", ""]
    for title, lines in parts:
        out += [title + "", ""] + block(lines) + [""]
    out += ["### Definitions", ""]
    for crate, name, *rest in told["definitions"]["changed"]:
        old, new = rest
        lines = [("-", t) for t in (old if isinstance(old, list) else [old])] + [("+", t) for t in (new if isinstance(new, list) else [new])]
        if [old_names(t) for m, t in lines if m == "-"] == [old_names(t) for m, t in lines if m == "+"]:
            continue
        out += [f"`{crate}`: `{name}`", ""] + block(lines) + [""]
    gone = ", ".join(f"`{c}` `{n}`" for c, n, *_ in told["definitions"]["gone"])
    out += textwrap.wrap("Gone: " + gone + ". What states their meaning now stands in the table of functions and definitions above.", 108, break_on_hyphens=False)
    text = PAGE.read_text().split(BEGIN)[0].rstrip("\n")
    PAGE.write_text(text + "\n\n" + "\n".join(out).rstrip("\n") + "\n")
    print(len(moved), "moved,", len(parts), "changed,", len(told["definitions"]["changed"]), "definitions")


main()
