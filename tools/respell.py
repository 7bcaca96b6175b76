#!/usr/bin/env python3
"""Brings the names that this repository's .antt files declare to the spelling of today's Rattle.

usage: python3 tools/respell.py          once, at the top, right behind port.py; rewrites crates/ in place

Words are in snake case: threadOf and thread-of become thread_of. Types, facts, modules and constructors that begin with a capital
letter keep their spelling, and so do names of source code, of the library, and those that proof files cite of what Rattle makes
(Proof.antt: only what is imported from this repository turns there). Where a definition and a lemma fall together in a file that
speaks of both, the lemma gets _lem. It prints what it turned apart; names that it would have to turn into a name that a file
already has for something else are an error, and nothing is written.
"""
import collections
import os
import re
import sys

HEAD = re.compile(r"\s*(?:(?:pub|abbrev|unfoldable|mutual|where|let)\s+)*")
WORD = re.compile(r"[^\s(){}\[\];,.:=`\"|&!<>]+")
SPOKEN = re.compile(r"(?<=`)[^`\s]+(?=`)|\b[a-z]+[A-Z]\w*")
LITERAL = re.compile(r"(^\s*|[{;]\s*)$")
IN_RECORD = re.compile(r"\s+(pub\s+)?$")
IMPORT = re.compile(r"use\s+([^\s{}]+?)\.\{([^}]*)\}", re.S)


def spelled(name):
    """name in snake case, or as it is where it begins with a capital letter or a sign."""
    if not re.match(r"[a-z]", name):
        return name
    parts = []
    for part in name.split("-"):
        part = re.sub(r"([a-z0-9'])([A-Z])", lambda m: m[1] + "_" + m[2].lower(), part)
        parts.append(re.sub(r"[A-Z]+", lambda m: m[0].lower(), part))
    return "_".join(parts)


def files():
    found = {}
    for folder, folders, names in os.walk("crates"):
        folders[:] = sorted(f for f in folders if f != "out")
        for name in sorted(names):
            if name.endswith((".antt", ".rt")):
                path = os.path.join(folder, name)
                found[path] = open(path, encoding="utf-8").read()
    return found


def declared_in(text):
    """The names that the lines of a file declare: NAME .. : TYPE, and what begins a clause of it."""
    names = set()
    for line in text.splitlines():
        if line.lstrip().startswith("--") or " : " not in line:
            continue
        head = line[HEAD.match(line).end():].split(" : ")[0]
        words = re.sub(r"\{[^{}]*\}|\([^()]*\)", " ", head).split()
        if words and not re.search(r"[(){}=λ]", " ".join(words)):
            names.update(words)
    return names


def fields_in(text):
    """The names of the fields of the records that a file declares."""
    names, inside = set(), False
    for line in text.splitlines():
        if line.strip() == "" or line.lstrip().startswith("--"):
            continue
        if re.match(r"\s*(pub\s+)?record\b", line):
            inside = len(line) - len(line.lstrip())
            continue
        if inside is not False and len(line) - len(line.lstrip()) <= inside and not line.lstrip().startswith(("where", "(", "{", ":")):
            inside = False
        if inside is not False and " : " in line:
            names.update(n for n in declared_in(line))
    return names


def imported(text):
    """From each imported name to the module that it comes from."""
    names = {}
    for module, words in IMPORT.findall(text):
        for word in words.replace("\n", " ").split(","):
            word = word.strip()
            if word:
                names[word.split(" as ")[0].strip()] = module
                if " as " in word:
                    names[word.split(" as ")[1].strip()] = module
    return names


def own(module, crates):
    parts = module.split(".")
    return len(parts) > 1 and parts[0] == "Rattle" and parts[1] in crates


def table(texts, crates):
    declared = collections.defaultdict(set)
    for path, text in texts.items():
        if path.endswith(".antt") and not path.endswith("Proof.antt"):
            for name in declared_in(text):
                declared[name].add(path)
    turned = {name: spelled(name) for name in declared if spelled(name) != name}
    # what falls together in one file that is no Proof.antt: the lemma (a dash, else what is in snake case already) is set apart
    apart = set()
    for path, text in texts.items():
        if path.endswith("Proof.antt") or path.endswith(".rt"):
            continue
        words = set(WORD.findall(text))
        there = collections.defaultdict(set)
        for word in words:
            if word in turned:
                there[turned[word]].add(word)
        for name, olds in there.items():
            if name in words:
                olds = olds | {name}
            if len(olds) > 1:
                apart.add((name, tuple(sorted(olds))))
    return declared, turned, apart


def main():
    crates = {c for c in os.listdir("crates")}
    texts = files()
    declared, turned, apart = table(texts, crates)
    fields = set().union(*(fields_in(t) for p, t in texts.items() if p.endswith(".antt")))
    for name, olds in sorted(apart):
        dashed = [o for o in olds if "-" in o]
        if dashed:
            for old in dashed:
                turned[old] = name + "_lem"
        else:
            plain = [o for o in olds if o == name]
            turned[plain[0]] = name + "_lem"
        print("apart:", name, olds)
    for name in sorted(turned.values()):
        if name.endswith("_lem") and name in declared and turned.get(name, name) == name:
            print("falls together:", name)
            return 1
    for path, text in texts.items():
        brought = imported(text)
        proof = path.endswith("Proof.antt") or path.endswith(".rt")
        here = {n for n in brought if own(brought[n], crates)}
        alien = {n for n in brought if not own(brought[n], crates)}
        mine = declared_in(text) if not proof else set()
        its_fields = fields_in(text) if path.endswith(".antt") else set()

        def turn(match):
            word = match[0]
            before = match.string[:match.start()]
            if word in fields and (before.endswith(".") and not re.search(r"(\bc|\.before)\.$", before) or IN_RECORD.match(before) and
                                   match.string[match.end():].startswith(" : ") and word in its_fields):
                return spelled(word)
            if word in fields and match.string[match.end():].startswith(" = ") and LITERAL.search(before) and (word not in mine or word in its_fields):
                return spelled(word)
            if word not in turned or word in alien:
                return word
            if proof and word not in here:
                # a field, or a name by its module, of what is imported
                if "-" in word or not before.endswith("."):
                    return word
            if spelled(word) == word and not (word in here or word in mine):
                return word
            return turned[word]

        lines = []
        for line in text.split("\n"):
            code, mark, remark = line.partition("--" if path.endswith(".antt") else "//")
            if mark and code.strip() == "":
                # a sentence: only what is plainly a name turns
                lines.append(line if path.endswith(".rt") else code + mark + SPOKEN.sub(lambda m: turned.get(m[0], m[0]), remark))
            else:
                lines.append(WORD.sub(turn, line))
        new = "\n".join(lines)
        if new != text:
            with open(path, "w", encoding="utf-8") as to:
                to.write(new)
    with open("tools/respelled.tsv", "w", encoding="utf-8") as to:
        to.writelines(f"{old}\t{new}\n" for old, new in sorted(turned.items()) if old != new)
    return 0


if __name__ == "__main__":
    sys.exit(main())
