#!/usr/bin/env python3
"""Spells this repository's definitions and lemmas in snake case, as today's Rattle does.

usage: respell.py FOLDER [--check]

FOLDER is the top of the repository, after port.py has run there. What turns is a name that a file of specs/ or
proofs/ declares: in those files, in the clauses and `ghost use` items of src/, in must-fail edits, and in the code
spans of the documents. Functions of src/, what Rattle makes of them (answers, steps, labels), strings and inputs
keep their names. --check writes nothing and lists the names that would fall together.
"""

import collections
import os
import re
import sys

NAME = r'[^\s(){}.;,@"«»`]+'
TOKEN = re.compile(NAME)
COMMENT = re.compile(r'(?<![^\s(){}.;,@"«»])--[^\n]*')
SPAN = re.compile(r"`[^`\n]+`")
DECLARED = re.compile(rf"(?m)^[ \t]*((?:{NAME}[ \t]+)+)(?:\{{[^{{}}\n]*\}}[ \t]*)*:(?=\s)")
WORDS = {"pub", "abbrev", "unfoldable", "private", "record", "data", "where"}
# A name whose capitals are no camel humps.
OWN = {"isFF": "is_ff"}
# Lemmas that have their function's name once it is in snake case.
LEMMAS = {
    it: it + "_lem"
    for it in "count_by step_by read_told first_entry step_block by_blocks by_place part_length all_near".split()
}
CLAUSE = re.compile(r"\b(?:requires|ensures)\*?\s*(?:\w+\s*)?\{|\bghost\s+use\b")


def snake(name):
    if name in OWN:
        return OWN[name]
    if re.match(r"[A-Z]", name):
        return name.replace("-", "_")
    words = re.sub(r"(?<=[a-z0-9₀-₉'])[A-Z](?![A-Z])", lambda m: "_" + m[0].lower(), name)
    return words.replace("-", "_")


def files(top, *endings):
    for folder, below, names in os.walk(top):
        below[:] = sorted(it for it in below if it != "out")
        for name in sorted(names):
            if name.endswith(endings):
                yield os.path.join(folder, name)


def read(path):
    with open(path, encoding="utf-8") as f:
        return f.read()


# Is this the proof of one function, whose answers have the names that Rattle makes?
def of_a_function(path):
    return os.path.basename(path) in ("Proof.antt", "Answers.antt", "Invariants.antt")


def declared(path, text):
    found = set()
    for m in DECLARED.finditer(COMMENT.sub("", text)):
        names = m[1].split()
        for name in names:
            if name in WORDS:
                continue
            found.add(name)
    return found


# The names that a file takes from a library, which spells them.
def borrowed(text, crates):
    found = set()
    for m in re.finditer(r"\buse (\S+?)\.\{([^}]*)\}", text):
        steps = m[1].split(".")
        if steps[0] != "Rattle" or steps[1] not in crates:
            found |= set(re.split(r",\s*| as ", m[2].strip()))
    return found


def answers(text):
    return {m[1] for m in re.finditer(rf"(?m)^(?:abbrev\s+)?(?:pub\s+)?({NAME})\s*:\s*(?:tie|goal)\.", text)}


def table(top):
    ours, fields = set(), set()
    for path in files(os.path.join(top, "crates"), ".antt"):
        text = read(path)
        names = declared(path, text)
        if of_a_function(path):
            names -= answers(text)
        ours |= names
        # The fields of records: what is declared deeper than the line `record .. where`.
        for m in re.finditer(r"(?m)^( *)(?:pub )?record [^\n]*where\n((?:(?:\1 +[^\n]*)?\n)*)", text):
            fields |= declared(path, m[2])
    turned = {name: snake(name) for name in ours}
    turned = {a: b for a, b in turned.items() if a != b}
    turned.update({a: b for a, b in LEMMAS.items() if a in ours})
    # A name with dashes keeps them where it would meet another name in some file, or one that the repository declares.
    taken = set(ours) | {b for a, b in turned.items() if re.search(r"[a-z][A-Z]", a)}
    for path in files(os.path.join(top, "crates"), ".antt"):
        used = words_of(read(path))
        taken |= {turned[a] for a in used if a in turned and turned[a] in used}
    keep = {a for a, b in turned.items() if "-" in a and not re.search(r"[a-z][A-Z]", a) and b in taken}
    return {a: b for a, b in turned.items() if a not in keep}, fields


# The names that a file's code uses, but for the paths of modules and what stands behind a dot.
def words_of(text):
    code = COMMENT.sub("", text)
    code = re.sub(r"(?m)^use \S*?(?=\.\{| as )", "", code)
    return set(re.findall(rf"(?<![^\s(){{}};,@«»`]){NAME}", code))


class Turner:
    def __init__(self, turned, fields):
        self.turned, self.fields = turned, fields

    # The code of a text with its names turned.
    def code(self, text, stay=frozenset(), of_rust=False):
        out, at = [], 0
        for m in TOKEN.finditer(text):
            name = m[0]
            new = self.turned.get(name)
            if new is None or name in stay or of_rust and name in LEMMAS:
                continue
            behind_dot = m.start() > 0 and text[m.start() - 1] == "."
            if behind_dot:
                head = re.search(r"[^\s(){};,@\"]+$", text[: m.start() - 1])
                path = head[0] if head else ""
                is_module = path.startswith(("Rattle.", "specs.", "proofs."))
                if not is_module and name not in self.fields:
                    continue
                if is_module and re.search(r"\.proofs$", path):
                    continue
            out.append(text[at : m.start()])
            out.append(new)
            at = m.end()
        out.append(text[at:])
        return "".join(out)

    def spans(self, text):
        return SPAN.sub(lambda m: self.prose(m[0]), text)

    # In prose only what cannot be a word of a sentence, a file or an edit.
    def prose(self, text):
        return TOKEN.sub(lambda m: self.turned.get(m[0], m[0]) if re.search(r"[a-z][A-Z]|.-", m[0]) else m[0], text)

    def antt(self, text, stay=frozenset()):
        out, at = [], 0
        for m in COMMENT.finditer(text):
            out.append(self.code(text[at : m.start()], stay))
            out.append(self.spans(m[0]))
            at = m.end()
        out.append(self.code(text[at:], stay))
        return "".join(out)

    # The clauses and imports of a source file: what stands between a clause's braces, and `ghost use` items.
    def rt(self, text, stay):
        out, at = [], 0
        while True:
            m = CLAUSE.search(text, at)
            if not m:
                break
            out.append(self.comments(text[at : m.start()]))
            if m[0].startswith("ghost"):
                end = text.index(";", m.end())
            else:
                depth, end = 1, m.end()
                while depth:
                    depth += {"{": 1, "}": -1}.get(text[end], 0)
                    end += 1
            out.append(text[m.start() : m.end()])
            out.append(self.code(text[m.end() : end], stay, of_rust=True))
            at = end
        out.append(self.comments(text[at:]))
        return "".join(out)

    def comments(self, text):
        return re.sub(r"(?m)//[^\n]*", lambda m: self.spans(m[0]), text)

    def edit(self, text):
        kind, out = "", []
        for line in text.split("\n"):
            m = re.match(r"(file|old|new): ?(.*)$", line)
            if not m:
                out.append(line)
                continue
            if m[1] == "file":
                kind = m[2].strip()
                out.append(line)
            elif kind.endswith(".antt"):
                out.append(f"{m[1]}: " + self.antt(m[2]))
            else:
                # a clause, or code, whose names are no definitions'
                has = re.search(r"ensures|requires|ghost use", m[2])
                out.append(f"{m[1]}: " + (self.code(m[2], of_rust=True) if has else m[2]))
        return "\n".join(out)


def main():
    top = sys.argv[1]
    check = "--check" in sys.argv
    crates = set(os.listdir(os.path.join(top, "crates")))
    turned, fields = table(top)
    by_new = collections.defaultdict(set)
    for a, b in turned.items():
        by_new[b].add(a)
    turner = Turner(turned, fields)
    met = 0
    for b, many in sorted(by_new.items()):
        if len(many) > 1:
            print(f"fall together: {sorted(many)} -> {b}")
    changed = 0
    work = []
    for path in files(os.path.join(top, "crates"), ".antt"):
        text = read(path)
        stay = borrowed(text, crates) | (answers(text) if of_a_function(path) else set())
        new = turner.antt(text, stay)
        used = words_of(text)
        for a in sorted(used & set(turned)):
            if turned[a] in used and a not in stay:
                print(f"meets: {path[len(top):]}: {a} -> {turned[a]}")
                met += 1
        work.append((path, text, new))
    for path in files(os.path.join(top, "crates"), ".rt"):
        text = read(path)
        work.append((path, text, turner.rt(text, borrowed(text, crates))))
    for path in files(os.path.join(top, "crates"), ".edit"):
        text = read(path)
        work.append((path, text, turner.edit(text)))
    for path in list(files(os.path.join(top, "docs"), ".md")) + [os.path.join(top, "README.md")]:
        if "/landings/" in path or path.endswith("PORT.md"):
            continue
        text = read(path)
        work.append((path, text, turner.spans(text)))
    for path, text, new in work:
        if text != new:
            changed += 1
            if not check:
                with open(path, "w", encoding="utf-8") as f:
                    f.write(new)
    print(f"respell: {len(turned)} names, {changed} files, {met} that meet another")


main()
