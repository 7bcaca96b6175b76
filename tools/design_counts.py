#!/usr/bin/env python3
"""Counts the places of each point of docs/DESIGN-PASS.md in the sources of a tree.

    python3 tools/design_counts.py [FOLDER] [--places]

FOLDER holds crates/; without one it is this repository. With --places each place is printed. The patterns look at crates/*/src, but for
point 8, which looks at the answers of proofs/. tarczolin_c is left out: tests/gate/exports.py writes it.
"""
import collections
import pathlib
import re
import sys

ROOT = pathlib.Path(next((a for a in sys.argv[1:] if not a.startswith("-")), pathlib.Path(__file__).resolve().parent.parent))
PLACES = "--places" in sys.argv

SOURCES = sorted(f for f in ROOT.glob("crates/*/src/**/*.rt") if f.parts[-3] != "tarczolin_c" and "tarczolin_c" not in f.parts)


def functions():
    """Each function: its file, line, comment, head and body."""
    for f in SOURCES:
        lines = f.read_text().split("\n")
        for i, line in enumerate(lines):
            if not re.match(r"^(pub(\(crate\))? )?(extern \"C\" )?fn \w+", line) and not re.match(r"^    (pub(\(crate\))? )?fn \w+", line):
                continue
            j = i
            while not re.match(r"^\s*\{\s*$|.*\{$", lines[j]) or re.match(r"^\s*(requires|ensures)\b", lines[j]):
                j += 1
            close = re.match(r"^\s*", line).group(0) + "}"
            k = j + 1
            while k < len(lines) and lines[k] != close:
                k += 1
            c = i - 1
            while c >= 0 and re.match(r"^\s*(//|#\[)", lines[c]):
                c -= 1
            yield f, i + 1, " ".join(l.strip() for l in lines[c + 1:i]), "\n".join(lines[i:j + 1]), lines[j + 1:k]


FUNCTIONS = list(functions())


def name_of(head):
    return re.search(r"\bfn (\w+)", head).group(1)


def lines_with(pattern):
    for f in SOURCES:
        for n, line in enumerate(f.read_text().split("\n")):
            if re.search(pattern, line) and not line.lstrip().startswith("//") and not line.startswith("ghost use"):
                yield f, n + 1, line.strip()


def functions_where(test):
    for f, n, comment, head, body in FUNCTIONS:
        if test(comment, head, "\n".join(body)):
            yield f, n, name_of(head)


KEYWORDS = set("let mut if else for in while loop match return as true false fn pub ref move continue break".split())


def shape(body):
    """A body with names by their order and numbers away."""
    names = {}
    text = re.sub(r"//.*", "", "\n".join(body))
    text = re.sub(r"\b(0x[0-9a-f_]+|\d[\d_]*)(u8|u32|u64|usize)?\b", "#", text)

    def word(m):
        w = m.group(0)
        if w in KEYWORDS:
            return w
        return names.setdefault(w, f"v{len(names)}")

    return re.sub(r"\s+", " ", re.sub(r"\b[A-Za-z_]\w*\b", word, text)).strip()


def twins():
    groups = collections.defaultdict(list)
    for f, n, comment, head, body in FUNCTIONS:
        if len([l for l in body if l.strip()]) >= 3:
            groups[shape(body)].append((f, n, name_of(head)))
    for g in groups.values():
        if len(g) > 1:
            yield from g


def type_twins():
    groups = collections.defaultdict(list)
    for f in SOURCES:
        for m in re.finditer(r"^pub (struct|enum) (\w+) \{\n(.*?)^\}", f.read_text(), re.S | re.M):
            groups[(m.group(1), m.group(2))].append((f, f.read_text()[:m.start()].count("\n") + 1, m.group(2)))
    for g in groups.values():
        if len(g) > 1:
            yield from g


def records_with_a_length():
    for f in SOURCES:
        t = f.read_text()
        for m in re.finditer(r"^(pub )?struct (\w+) \{\n(.*?)^\}", t, re.S | re.M):
            b = m.group(3)
            if re.search(r": \[", b) and re.search(r"\b(steps|notes|count|length|known|rows|size): (usize|u8)", b):
                yield f, t[:m.start()].count("\n") + 1, m.group(2)


def parameters(head):
    return re.findall(r"\b(\w+): ", head.split(") ->")[0].split("requires")[0].split("ensures")[0])


def facts():
    """Facts of a `requires` that stand in the contracts of three functions or more."""
    seen = collections.defaultdict(set)
    for f, n, comment, head, body in FUNCTIONS:
        for r in re.findall(r"requires (?:\w+ )?\{ (.*?) \}(?=\n|$)", head, re.S):
            for part in re.split(r" × |\n", r):
                part = part.strip().strip("()")
                if part and "→" not in part and not re.match(r"\(?\w+ : ", part):
                    seen[part].add((str(f), n))
    return {p: s for p, s in seen.items() if len(s) >= 3}


SENTINEL = re.compile(
    r"(; (0|6|8|16|`steps`|NOBODY|2) (where|for)|, or 0\.|or 6 if|, or their number|NOBODY where|, and 0 where it passes|in this order, or 0"
    r"|; 0 for|; 8 where|The answer is 8|6 where)")

POINTS = [
    ("1 variants that are a refusal", lines_with(r"^\s+Refused\w*\(u8, usize\),")),
    ("1 enums of the shape of Option", lines_with(r"^\s+(Nothing|NoMore|Failed|Passed|Whole|Accepted),$")),
    ("1 flags with a value beside them", lines_with(r"^\s+pub (found|known|yes|all|full|failed|wrote|set): bool,")),
    ("1 numbers that stand for none", functions_where(lambda c, h, b: SENTINEL.search(c) and re.search(r"-> (u8|usize)", h))),
    ("1 numbers for refusals", functions_where(lambda c, h, b: re.search(r"\bfn (opening|starting|instruction|refusal|missing|open_refusal|first_refusal|turned_away)\(", h) and "Refusal" not in h)),
    ("1 numbers for kinds", functions_where(lambda c, h, b: re.search(r"(==|!=|<=|<) 0x[0-9a-f]{2}\b", b) or re.search(r"\b0x1[0-3] <", b))),
    ("1 numbers for yes and no", lines_with(r"^\s+pub (reads|writes): u8,|\bwrites == 1|reads == 1|note\[\d\]|log\[\w+ \+ \d\]|log\[\w+\]")),
    ("2 functions that are twins", twins()),
    ("2 types of one name", type_twins()),
    ("3 loops that count by hand", lines_with(r"^\s*(while|loop)\b")),
    ("4 equality, order, choice and conversion by hand", functions_where(lambda c, h, b: re.search(
        r"\bfn (wide|same\w*|least|larger|smaller|beyond|both|either|looked|states|touches|flag|one_if|sign|word|chosen|value_or|byte_or|value_if|stamp_behind"
        r"|value_behind|last_behind|slot_behind|tail_behind|record_of|reply_of|numbers_of|put_front|put_schedule|join|byte_of|bytes_kept|place_after|mark_at|is_equal)\(", h))),
    ("4 fields copied one by one", lines_with(r"^\s+(\w+): \w+\.\1,$")),
    ("5 functions with code and lengths", functions_where(lambda c, h, b: {"code", "lengths"} <= set(parameters(h)))),
    ("5 functions of seven parameters or more", functions_where(lambda c, h, b: len(parameters(h)) >= 7)),
    ("6 arrays with a length beside them", records_with_a_length()),
    ("7 switches on the model", lines_with(r"match model \{")),
    ("7 flags for what to do", functions_where(lambda c, h, b: re.search(r"\b(failures|tight|hostile): bool", h))),
]

for title, places in POINTS:
    places = list(places)
    print(f"{len(places):5}  {title}")
    if PLACES:
        for f, n, what in places:
            print(f"         {f.relative_to(ROOT)}:{n}: {what}")
repeated = facts()
print(f"{len(repeated):5}  5 facts in the contracts of three functions or more")
if PLACES:
    for p, s in sorted(repeated.items(), key=lambda x: -len(x[1])):
        print(f"         {len(s)} times: {p}")
answers = [f for f in ROOT.glob("crates/*/proofs/**/Answers.antt")]
print(f"{len(answers):5}  8 files of answers, of {sum(len(f.read_text().split(chr(10))) - 1 for f in answers)} lines")
