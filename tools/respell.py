#!/usr/bin/env python3
"""Brings the repository's own definitions and lemmas to one spelling: words in snake case (`signAt`, `put-rises` become
`sign_at`, `put_rises`), types, facts and modules in camel case as they are. Functions of src/, strings, inputs, outputs and the
names that Rattle makes keep theirs. Run once, at the top, after /opt/rattle/port/port.py; it prints names that fall together.
"""
import collections
import os
import re
import subprocess
import sys

PART = r"[^\s(){}\[\].,;:`\"@\\|\u03bb\u2237\u2261\u2192\u00d7]"
TOKEN = re.compile(r"(?<![\w'\u2032\u00b7\u25cc-])[A-Za-z][\w'\u2032]*(?:-[A-Za-z0-9'\u2032_]+)*(?![\w\u00b7\u25cc])")
MADE = re.compile(r"^(returns|loop|decreases|overflow\w*|invariant\w*|bounds|slice_bounds|offset_bounds|nonzero\w*|prove)(-|$)|-requires(-|$)|-(init|preserved|smaller)$")
DECLARED = re.compile(r"^\s*(?:(?:abbrev|pub|unfoldable)\s+)*(?:(?:data|record)\s+)?([A-Za-z][\w'\u2032-]*)\s*[:({]")
FIELD = re.compile(r"^\s+pub ([A-Za-z][\w'\u2032-]*) :")


def antt(top):
    for folder, dirs, files in os.walk(os.path.join(top, "crates")):
        dirs[:] = sorted(d for d in dirs if d != "out")
        for f in sorted(files):
            if f.endswith(".antt"):
                yield os.path.join(folder, f)


# Lemmas that would have the name of a definition or of another lemma, beside the name that falls together with theirs.
LEMMAS = {
    "all-forbidden": "allForbidden",
    "all-over": "allOver",
    "all_right": "allRight",
    "before-all": "beforeAll",
    "read-items": "readItems",
    "right-table": "rightTable",
    "sign_at": "signAt",
    "small-frames": "smallFrames",
    "tells-forbidden": "tellsForbidden",
    "token-digits": "tokenDigits",
    "token-place": "tokenPlace",
    "token-symbol": "tokenSymbol",
}
OLD = set()


def snake(name):
    if LEMMAS.get(name) in OLD:
        return snake(name + "_lem")
    if name[0].isupper():
        return name
    name = re.sub(r"(?<=[a-z0-9])([A-Z])", lambda m: "_" + m[1].lower(), name)
    return name.replace("-", "_").replace("\u2032", "'")


def of_a_function(path):
    return os.path.basename(path) in ("Answers.antt", "Choices.antt", "Invariants.antt", "Proof.antt")


def declared(top):
    """The names that files of specs/ and proofs/ declare, the fields of records apart, and where."""
    names, fields = collections.defaultdict(set), collections.defaultdict(set)
    for path in antt(top):
        for line in open(path, encoding="utf-8"):
            if line.startswith(("use ", "pub use ", "mod ", "pub mod ", "--")):
                continue
            m = DECLARED.match(line)
            if m and " : " in line and not (of_a_function(path) and MADE.search(m[1])):
                names[m[1]].add(path)
            m = FIELD.match(line)
            if m:
                fields[m[1]].add(path)
    return names, fields


def respelled(text, names, fields):
    """Where a token follows a dot, it is a field, or an item of a module, whose name begins with a capital letter or is an alias."""
    def one(m):
        word = m[0]
        at = m.start()
        if at and text[at - 1] == ".":
            before = re.search(r"([\w'\u25cc-]+)\.$", text[max(0, at - 80):at])
            if before and before[1][0].isupper():
                return snake(word) if word in names else word
            return snake(word) if word in fields else word
        return snake(word) if word in names or word in fields else word
    return TOKEN.sub(one, text)


def main(top):
    names, fields = declared(top)
    every = set(names) | set(fields)
    OLD.update(every)
    meet = collections.defaultdict(set)
    for n in every:
        meet[snake(n)].add(n)
    for to, of in sorted(meet.items()):
        if len(of) > 1:
            print("fall together:", to, "from", *sorted(of), *sorted({p for n in of for p in names[n] | fields[n]}))
    turn = {n for n in every if snake(n) != n}
    print(len(turn), "names")
    listed = subprocess.run(["git", "ls-files", "-co", "--exclude-standard", "--", "crates", "README.md", "docs"], cwd=top, capture_output=True, text=True).stdout.split("\n")
    for f in listed:
        path = os.path.join(top, f)
        if not f.endswith((".rt", ".antt", ".md")) or not os.path.isfile(path):
            continue
        text = open(path, encoding="utf-8").read()
        if f.endswith(".md"):
            new = re.sub(r"`[^`\n]+`", lambda m: TOKEN.sub(lambda t: snake(t[0]) if snake(t[0]) in {snake(n) for n in every} else t[0], m[0]), text)
        elif f.endswith(".rt"):
            new = "".join(piece if piece.startswith('"') else respelled(piece, turn & set(names), turn & set(fields)) for piece in re.split(r'("(?:[^"\\\n]|\\.)*")', text))
        else:
            new = respelled(text, turn & set(names), turn & set(fields))
        meet = collections.defaultdict(set)
        for t in set(TOKEN.findall(text)):
            meet[respelled(t, turn & set(names), turn & set(fields))].add(t)
        for to, of in meet.items():
            if len(of) > 1:
                print("fall together in", f, ":", to, "from", *sorted(of))
        if new != text:
            open(path, "w", encoding="utf-8").write(new)


if __name__ == "__main__":
    main(os.path.abspath(sys.argv[1] if len(sys.argv) > 1 else "."))
