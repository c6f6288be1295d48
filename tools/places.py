#!/usr/bin/env python3
"""Lists the places of src/ that docs/DESIGN-PASS.md counts, point by point.

    tools/places.py [ROOT]

ROOT is a checkout (else this one). Each place is one line: the point, the kind, the file and line, and what stands there. The last
lines have the counts. It reads the text alone: what it lists is where to look, and the page says what became of each.
"""
import collections
import itertools
import os
import re
import sys

ROOT = sys.argv[1] if len(sys.argv) > 1 else os.path.join(os.path.dirname(os.path.abspath(__file__)), "..")
FUNCTION = re.compile(r"^( *)(?:#\[[^\n]*\]\n *)*(?:pub(?:\(super\))? )?(?:extern \"C\" )?fn (\w+)(<[^(\n]*>)?\(", re.M)
found = []


def place(point, kind, path, line, text):
    found.append((point, kind, path, line, " ".join(text.split())[:110]))


def sources():
    for folder, _, names in sorted(os.walk(os.path.join(ROOT, "crates"))):
        if folder.endswith("/src") or "/src/" in folder:
            for name in sorted(names):
                if name.endswith(".rt"):
                    path = os.path.join(folder, name)
                    yield os.path.relpath(path, ROOT), open(path, encoding="utf-8").read()


def closing(text, at):
    """The place behind the bracket that closes the one at a place."""
    pairs = {"(": ")", "{": "}", "[": "]"}
    depth, close, open_ = 0, pairs[text[at]], text[at]
    while at < len(text):
        if text[at] == open_:
            depth += 1
        elif text[at] == close:
            depth -= 1
            if depth == 0:
                return at + 1
        at += 1
    return at


class Function:
    def __init__(self, path, text, match):
        self.path, self.indent, self.name = path, match.group(1), match.group(2)
        self.line = text.count("\n", 0, match.start(2)) + 1
        end = closing(text, match.end() - 1)
        self.parameters = " ".join(text[match.end():end - 1].split())
        body = re.compile(r"^" + self.indent + r"\{$|\{$|\{\}$", re.M).search(text, end)
        head_end = text.find("\n" + self.indent + "{", end)
        line_end = text.find("\n", end)
        first = text[end:line_end]
        if first.rstrip().endswith("{"):
            start = line_end - 1
        elif head_end >= 0:
            start = head_end + 1 + len(self.indent)
        else:
            start = end
        self.result = first.split("{")[0].strip() if "->" in first else ""
        self.head = text[end:start]
        self.body = text[start:closing(text, start)] if text[start:start + 1] == "{" else ""
        before = text[:match.start()].rstrip("\n").split("\n")
        comment = []
        while before and before[-1].strip().startswith(("//", "#[")):
            comment.insert(0, before.pop().strip())
        self.comment = " ".join(comment)


def normal(function):
    """The function's code with its names, types and numbers taken out."""
    names = {}
    out = []
    for token in re.findall(r"[A-Za-z_]\w*|\d[\d_]*|[^\s\w]", function.parameters + "|" + function.body):
        if re.match(r"\d", token):
            out.append("0")
        elif re.match(r"[A-Z]", token):
            out.append("T")
        elif re.match(r"[a-z_]", token) and token not in KEYWORDS:
            out.append("n%d" % names.setdefault(token, len(names)))
        else:
            out.append(token)
    return tuple(out)


KEYWORDS = set("let mut if else match for in while loop return true false self as fn pub move".split())


def main():
    functions = []
    for path, text in sources():
        lines = text.split("\n")
        here = [Function(path, text, m) for m in FUNCTION.finditer(text)]
        functions += here
        # 1: enums of two cases, flags, numbers for kinds
        for m in re.finditer(r"^ *(?:pub(?:\(super\))? )?enum (\w+)[^{]*\{(.*?)^\}", text, re.M | re.S):
            cases = [l.strip() for l in m.group(2).split("\n") if re.match(r" +[A-Z]\w*(\(|,| \{|$)", l)]
            if len(cases) == 2 and any("(" in c or "{" in c for c in cases):
                place(1, "enum of two cases", path, text.count("\n", 0, m.start()) + 1, m.group(1) + ": " + " ".join(cases))
        for m in re.finditer(r"struct (\w+)[^{;]*\{([^}]*)\}", text):
            if re.search(r": bool,", m.group(2)):
                place(1, "flag in a struct", path, text.count("\n", 0, m.start()) + 1, m.group(1))
        for f in here:
            if f.result.startswith("-> bool") and re.search(r"False,? (and|where)|Whether .* was|takes? ", f.comment) and "False" in f.comment and "Whether the levers" not in f.comment:
                place(1, "bool for success", path, f.line, f.name)
            if re.search(r"-> (u8|u32)\b", f.result) and re.search(r"match|=> \d", f.body) and re.search(r"=> (\d+|[A-Z_]{4,}|\d+),", f.body):
                place(1, "number for a kind", path, f.line, f.name + " " + f.result)
            if re.search(r"Result<[^>]*(?:<[^>]*>)?, (usize|u8|u32|\()", f.result + f.parameters):
                place(1, "number for an error", path, f.line, f.name + " " + f.result)
            if re.search(r"\bkind: u|\bcode: u", f.parameters):
                place(1, "number for a kind", path, f.line, f.name + "(" + f.parameters + ")")
            if f.result.startswith("-> u8") and re.fullmatch(r"\{\s*\d+\s*\}", f.body):
                place(1, "number for nothing", path, f.line, f.name)
            if re.search(r"Option<\(u8, |: \(u8, ", f.result + " " + f.parameters):
                place(1, "number for an error", path, f.line, f.name + "(" + f.parameters + ") " + f.result)
            if re.match(r"u32|digit|number|code", f.parameters) and re.search(r"\b\d => (Some\()?[A-Z]\w+::", f.body):
                place(1, "number for a kind", path, f.line, f.name + "(" + f.parameters + ") " + f.result)
        for i, l in enumerate(lines):
            if re.match(r"const [A-Z_]+: u8 = \d", l) or re.match(r"const .*Result<u32, \(u8, usize\)>", l):
                place(1, "number for a kind", path, i + 1, l)
            if re.match(r" +pub number: u8,", l):
                place(1, "number for a kind", path, i + 1, l)
        # 3: loops
        for f in here:
            for m in re.finditer(r"^( *)(while|loop)\b.*\{$", f.body, re.M):
                block = f.body[m.start():closing(f.body, f.body.index("{", m.start()))]
                if "while let" not in m.group(0) or re.search(r"\+= 1|-= 1|saturating_add\(1\)", block):
                    place(3, "while", path, f.line, f.name + ": " + m.group(0))
            for m in re.finditer(r"^ *for (.*) in (.*) \{$", f.body, re.M):
                start = f.body.index("{", m.end() - 1)
                block = f.body[start:closing(f.body, start)]
                inner = block[1:-1].strip()
                variable = m.group(1).strip()
                if re.search(r"\w\.\.", m.group(2)) and re.search(r"\[[^\]]*\b%s\b[^\]]*\]" % re.escape(variable), block):
                    place(3, "range that indexes", path, f.line, f.name + ": " + m.group(0))
                elif re.search(r"\b%s \* |\* %s\b" % (re.escape(variable), re.escape(variable)), block) and ".." in m.group(2):
                    place(3, "range that indexes", path, f.line, f.name + ": " + m.group(0))
                elif re.fullmatch(r"if [^{]*\{\s*return (true|false|None|Some\([^;]*\)|&[^;]*|\([^;]*\));\s*\}", inner):
                    place(3, "loop that is any, all or find", path, f.line, f.name + ": " + m.group(0))
                elif re.search(r"^\s*(\w+)(\.\w+)? (\+= 1|= \1\.saturating_add\((1|\w+)\));", block, re.M) or re.search(r"%= |/= |/ \d;", block) or re.search(r"\bat = at\.", block):
                    place(3, "count beside a loop", path, f.line, f.name + ": " + m.group(0))
                elif re.fullmatch(r"\w+ = [^;]*;", inner):
                    place(8, "for that is a fold", path, f.line, f.name + ": " + m.group(0))
                elif re.fullmatch(r"if [^{]*\{\s*\w+\.push\([^;]*\)\??;\s*\}", inner) or re.fullmatch(r"\w+\.push\([^;]*\)\?;", inner):
                    place(8, "for that collects", path, f.line, f.name + ": " + m.group(0))
        # 4: equality, order, copying, conversion by hand
        for m in re.finditer(r"^impl(<[^{]*>)? (Clone|PartialEq|Eq|PartialOrd|Ord|Hash)(<\w+>)? for (\w+)", text, re.M):
            place(4, "impl by hand", path, text.count("\n", 0, m.start()) + 1, m.group(0))
        for f in here:
            body = f.body.strip()[1:-1].strip()
            arms = re.findall(r"=> ([^,{]*),?$", body, re.M)
            if f.name not in ("from", "try_from", "eq", "cmp", "partial_cmp") and re.fullmatch(r"match \S+ \{.*\}", body, re.S) and arms and all(re.fullmatch(r"(Some\()?([A-Z]\w*::\w+|\d+|b'.'|\"[^\"]*\"|[A-Z_]{4,}|None)\)?", a.strip()) for a in arms) and re.search(r"(^|, )(\w+: (u8|u32|Sign|Mark|Stop|char|\w*Fault)|self)", f.parameters):
                place(4, "conversion by hand", path, f.line, f.name + "(" + f.parameters + ") " + f.result)
            elif re.fullmatch(r"record", f.name):
                place(4, "conversion by hand", path, f.line, f.name + "(" + f.parameters + ") " + f.result)
            if re.search(r"Ordering::Less\s*\}\s*else", f.body):
                place(4, "order by hand", path, f.line, f.name)
            if f.name == "new" and len(re.findall(r": 0,", f.body)) > 2:
                place(4, "default by hand", path, f.line, f.name)
            if re.search(r">> 8", f.body):
                place(4, "conversion by hand", path, f.line, f.name + ": bytes of a number")
        # 6: buffers with a length beside
        for m in re.finditer(r"struct (\w+)[^{;]*\{([^}]*)\}", text):
            if re.search(r": \[[^\]]*; ?\w+\],", m.group(2)) and re.search(r": usize,", m.group(2)):
                place(6, "buffer with a length beside", path, text.count("\n", 0, m.start()) + 1, m.group(1))
        for f in here:
            if re.search(r"&mut \[\w+\]", f.parameters) and f.result == "-> usize" and not f.name.startswith("boundary"):
                place(6, "buffer with a length beside", path, f.line, f.name + "(" + f.parameters + ")")
            if re.search(r"\w+: &(mut )?\[\w+\], \w+: &(mut )?\[bool\]", f.parameters):
                place(6, "parallel arrays", path, f.line, f.name + "(" + f.parameters + ")")
        # 7: a switch on which function or value to run with
        for f in here:
            calls = re.findall(r"=> (\w+)\(&\w", f.body)
            if len(calls) > 1 and len(set(calls)) < len(calls):
                place(7, "switch on what to run", path, f.line, f.name)
    # 2: twins
    by = collections.defaultdict(list)
    for f in functions:
        code = normal(f)
        if len(code) > 14 and f.body:
            by[code].append(f)
    for twins in by.values():
        first = twins[0]
        for other in twins[1:]:
            place(2, "twin", other.path, other.line, "%s and %s (%s)" % (other.name, first.name, first.path))
    # 5: requires and parameters that stand together
    clauses = collections.defaultdict(list)
    pairs = collections.defaultdict(list)
    for f in functions:
        for clause in re.findall(r"requires(?: \w+)? \{ (.*) \}\s*$", f.head, re.M):
            clauses[re.sub(r"\.(now|old|new)\b", "", clause)].append(f)
        given = sorted(set(p.strip() for p in re.split(r", (?=\w+: )", f.parameters) if ": " in p))
        for pair in itertools.combinations(given, 2):
            pairs[pair].append(f)
    for clause, fs in clauses.items():
        if len(fs) >= 3:
            place(5, "requires in %d functions" % len(fs), fs[0].path, fs[0].line, clause)
    for pair, fs in pairs.items():
        if len(fs) >= 4:
            place(5, "parameters in %d functions" % len(fs), fs[0].path, fs[0].line, ", ".join(pair))
    found.sort()
    for point, kind, path, line, text in found:
        print("%s  %-30s %s:%d  %s" % (point if point < 8 else "3b", kind, path, line, text))
    print()
    for point in range(1, 9):
        name = "point %d" % point if point < 8 else "beside point 3, `for` loops that fold or collect"
        print("%s: %d" % (name, sum(1 for p in found if p[0] == point)))


main()
