#!/usr/bin/env python3
"""Brings the must-fail edits to the spelling of today's Rattle, or checks them.

usage: python3 tools/respell_edits.py          at the top; turns each edit that is still as it had landed, or is gone, from its landed text
       python3 tools/respell_edits.py --check  each edit that had landed is there; each old text stands once; what is edited reads well

LANDED is the first line of docs/PORT.md. An edit whose old texts stand in today's file keeps them. In the others the names are turned
by tools/respelled.tsv, or as respell.py would turn them, and projections are written tight, as port.py writes them: f a .x is
(f a).x. What doesn't fit then is printed, and is brought over by hand. A line that begins with # is turned in names between backquotes alone.
"""
import os
import re
import subprocess
import sys

from respell import spelled

WORD = re.compile(r"[^\s(){}\[\];,.:=`\"|&!<>]+")
# names of the library that the edits have
LIBRARY = {"getD": "get_or", "List·Memᴰ": "Memᴰ"}
SIGNS = {"=", "≡", "≢", "&&", "||", "+", "-", "*", "/", "%", "^", "<", "≤", "→", "↔", "×", "⊎", ";", "↦", "|", "∷", "++", "{", "[", ","}
# what stands in a file of antt without a line that brings it in: words of the language
WORDS = {"λ", "elim", "record", "let", "in", "true", "false", "Type"}


def git(*words):
    return subprocess.run(["git", *words], capture_output=True, text=True, check=True).stdout


def landed():
    with open("docs/PORT.md", encoding="utf-8") as page:
        return page.readline().strip()


def table():
    names = {}
    with open("tools/respelled.tsv", encoding="utf-8") as rows:
        for row in rows:
            old, new = row.rstrip("\n").split("\t")
            names[old] = new
    return {**names, **LIBRARY}


def pieces(text):
    """The text from left to right: spaces, brackets with what is in them, and words."""
    found, at = [], 0
    while at < len(text):
        if text[at] == " ":
            end = at + 1
        elif text[at] in "(":
            end, depth = at, 0
            while end < len(text):
                depth += {"(": 1, ")": -1}.get(text[end], 0)
                end += 1
                if depth == 0:
                    break
            if depth:
                # no end within this text
                found.append("(")
                at += 1
                continue
        else:
            end = at
            while end < len(text) and text[end] not in " ()":
                end += 1
            end = max(end, at + 1)
        found.append(text[at:end])
        at = end
    return found


def tight(text):
    """text with each projection written tight, and with no brackets round one alone."""
    found = pieces(text)
    if len(found) == 1 and text.startswith("(") and len(text) > 1:
        inner = tight(text[1:-1])
        if re.fullmatch(r"(\w[\w']*|\([^()]*(\([^()]*\)[^()]*)*\))(\.\w+)+", inner):
            return inner
        return f"({inner})"
    made = []
    for piece in found:
        if re.match(r"\.\w", piece) and made and made[-1] == " ":
            field, rest = re.match(r"(\.\w+)(.*)", piece).groups()
            made.pop()
            at = len(made)
            while at > 0 and made[at - 1] not in SIGNS and made[at - 1] not in "()" and not made[at - 1].endswith((".", ",", ";")):
                at -= 1
            while made[at] == " ":
                at += 1
            spine = "".join(made[at:])
            del made[at:]
            made.append((f"({spine})" if " " in re.sub(r"\([^()]*(\([^()]*\)[^()]*)*\)", "", spine) else spine) + field)
            if rest:
                made.append(rest)
        elif piece.startswith("(") and len(piece) > 1:
            made.append(tight(piece))
        else:
            made.append(piece)
    return "".join(made)


def turned(text, names):
    return tight(WORD.sub(lambda m: names.get(m[0]) or spelled(m[0]), text))


def applied(text, pairs):
    """The text with the pairs applied, or None where an old text doesn't stand once."""
    for old, new in pairs:
        if text.count(old) != 1:
            return None
        text = text.replace(old, new)
    return text


def read(edit):
    """The file that an edit names, and its pairs."""
    file, pairs, old = None, [], None
    for line in edit.split("\n"):
        if line.startswith("file: "):
            file = line[len("file: "):]
        elif line.startswith("old: "):
            old = line[len("old: "):]
        elif line.startswith("new: "):
            pairs.append((old, line[len("new: "):]))
    return file, pairs


def written(path):
    with open(path, encoding="utf-8") as it:
        return it.read()


def respell(edit, names):
    def line(text):
        if text.startswith(("old: ", "new: ")):
            return text[:5] + turned(text[5:], names)
        if text.startswith("#"):
            return re.sub(r"(?<=`)[^`\s]+(?=`)", lambda m: names.get(m[0], m[0]), text)
        return text

    return "\n".join(line(text) for text in edit.split("\n"))


def bring(commit, paths, names):
    same = by_script = 0
    left = []
    for path in paths:
        edit = git("show", f"{commit}:{path}")
        if os.path.exists(path) and written(path) != edit:
            continue
        file, pairs = read(edit)
        today = written(os.path.join(os.path.dirname(os.path.dirname(path)), file))
        new = respell(edit, names) if file.endswith(".antt") else edit
        fits = applied(today, read(new)[1]) is not None
        with open(path, "w", encoding="utf-8") as to:
            to.write(new)
        if not fits:
            left.append(path)
        elif new == edit:
            same += 1
        else:
            by_script += 1
    print(f"{same} as they were, {by_script} turned, {len(left)} to be brought over by hand:")
    for path in left:
        print(f"  {path}")


def names_in(text):
    code = "\n".join(line.partition("--")[0] for line in text.split("\n"))
    return set(WORD.findall(code)) | {part for word in WORD.findall(code) for part in re.split(r"[◌]", word)}


def faults(commit, path):
    """What is wrong with an edit."""
    if not os.path.exists(path):
        yield "it is gone"
        return
    edit, old_edit = written(path), git("show", f"{commit}:{path}")
    file, pairs = read(edit)
    old_file, old_pairs = read(old_edit)
    if file != old_file:
        yield f"it names {file}, and named {old_file}"
    remarks = [[line for line in it.split("\n") if line.startswith("#")] for it in (edit, old_edit)]
    if remarks[0] != remarks[1]:
        yield "its remark is another"
    before = written(os.path.join(os.path.dirname(os.path.dirname(path)), file))
    text = before
    for old, new in pairs:
        if text.count(old) != 1:
            yield f"{text.count(old)} times: {old}"
            return
        if old == new:
            yield f"nothing changes: {old}"
        text = text.replace(old, new)
    for left, right in ("()", "[]", "{}"):
        if before.count(left) - before.count(right) != text.count(left) - text.count(right):
            yield f"brackets {left}{right} that do not fit"
    if file.endswith(".antt"):
        if re.search(r"[\w)] \.\w", text):
            yield "a projection that is not tight"
        # a name that the file did not have is bound where it stands, is a field, or is brought in by another pair
        brought = names_in(" ".join(new for old, new in pairs if old.startswith("use ")))
        for old, new in pairs:
            for word in sorted(names_in(new) - names_in(before) - brought - WORDS):
                bound = rf"λ \(?{re.escape(word)}\b|[\w)]\.{re.escape(word)}\b|record \{{.*\b{re.escape(word)} = "
                if not re.fullmatch(r"\d+|0x\w+|[^\w]+|_.*", word) and not re.search(bound, new):
                    yield f"a name that the file does not have: {word}"
            for word in sorted(names_in(old + " " + new)):
                if re.search(r"\w-|-\w|^[a-z]+[A-Z]", word):
                    yield f"a name in the older spelling: {word}"


def main():
    commit = landed()
    paths = [it for it in git("ls-tree", "-r", "--name-only", commit).split("\n") if re.search(r"/must-fail/[^/]*\.edit$", it)]
    if sys.argv[1:] == ["--check"]:
        bad = 0
        for path in paths:
            for fault in faults(commit, path):
                print(f"{path}: {fault}")
                bad += 1
        print(f"{len(paths)} edits, {bad} faults")
        return 1 if bad else 0
    bring(commit, paths, table())
    return 0


if __name__ == "__main__":
    sys.exit(main())
