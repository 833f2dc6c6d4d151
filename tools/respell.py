#!/usr/bin/env python3
"""Spells this repository's own words of specs/ and proofs/ as today's Rattle does: words and lemmas in snake case.

usage: python3 tools/respell.py      once, at the top, after port.py

A word is a name in lower camel case; a lemma, a field or a word with dashes is one that a file of specs/ or right in proofs/ declares.
A lemma whose spelling would then be that of a definition gets `_lem` after it. Names of src/, strings, inputs and outputs stay.
"""

import os
import re

LETTER = r"[\w'\-]"
WORD = re.compile(r"(?<![\w'\-])[^\W\d_][\w'\-]*")
DECLARED = re.compile(r"^( *)(?:(?:pub|abbrev|unfoldable|ruleset) +)*(?:pub +)?([^\s:{}()\[\],;.=]+)(?: +[({][^=]*)? *:(?!\S)")
USE = re.compile(r"^(?:ghost )?use ([\w.'·\-]+)\.\{(.*)\};?$")
STRING = re.compile(r'b?"(?:[^"\\]|\\.)*"')


def files(*ends):
    for folder, dirs, names in os.walk("crates"):
        dirs[:] = sorted(d for d in dirs if d != "out")
        for name in sorted(names):
            if name.endswith(ends):
                yield os.path.join(folder, name)


def read(path):
    with open(path, encoding="utf-8") as f:
        return f.read()


def snake(name):
    name = re.sub(r"(?<=[a-z0-9])([A-Z])(?=[a-z0-9\-]|$)", lambda m: "_" + m.group(1).lower(), name)
    return name.replace("-", "_")


def crates():
    return {d for d in os.listdir("crates")}


def is_camel(name):
    return name[0].islower() and re.search(r"[a-z0-9][A-Z][a-z0-9]", name) is not None


def declared():
    """Names with dashes that specs/ and the files right in proofs/ declare: which file declares each."""
    found = {}
    for path in files(".antt"):
        parts = path.split(os.sep)
        if not (parts[2] == "specs" or os.path.basename(path) not in ("Proof.antt", "Answers.antt", "Invariants.antt")):
            continue
        for line in read(path).split("\n"):
            if line.lstrip().startswith(("use ", "--", "pub mod", "mod ", "unfolding", "let ", "open ")):
                continue
            m = DECLARED.match(line)
            if m and len(m.group(1)) % 2 == 0:
                found.setdefault(m.group(2), set()).add(path)
    return found


def foreign(own):
    """Names that a file brings in from a library: they stay in that file."""
    kept = {}
    mine = crates()
    for path in files(".antt", ".rt"):
        for line in read(path).split("\n"):
            m = USE.match(line.strip())
            if not m:
                continue
            head = m.group(1).split(".")
            if head[0] == "Rattle" and head[1] in mine:
                continue
            for item in m.group(2).split(","):
                for word in item.split():
                    kept.setdefault(path, set()).add(word)
    return kept


def plan(own):
    words, lemmas = {}, {}
    for name in own:
        if not name[0].isalpha() or name[0].isupper():
            continue
        if is_camel(name) and "-" not in name:
            words[name] = snake(name)
    defined = set(words.values())
    for name, where in own.items():
        if not name[0].isalpha() or name[0].isupper():
            continue
        if "-" in name:
            new = snake(name)
            lemmas[name] = new + "_lem" if new in defined or (new in own and own[new] != where and any("/specs/" in p for p in own[new])) else new
    return words, lemmas


def late_names(own, words):
    """Lemmas that port.py had already spelled as a definition is spelled from here on: by the file that speaks of them."""
    defined = set(words.values())
    mine = {n for n, where in own.items() if n in defined and all("/proofs/" in p for p in where)}
    late = {}
    for path in files(".antt"):
        for name in mine:
            if path in own[name]:
                late.setdefault(path, set()).add(name)
        for line in read(path).split("\n"):
            m = USE.match(line.strip())
            if m and m.group(1).startswith("Rattle."):
                module = os.path.join("crates", *m.group(1).split(".")[1:]) + ".antt"
                for word in m.group(2).replace(",", " ").split():
                    if word in mine and module in own[word]:
                        late.setdefault(path, set()).add(word)
    return late


def main():
    own = declared()
    words, lemmas = plan(own)
    late = late_names(own, words)
    kept = foreign(own)

    def turn(text, keep, camel, later=()):
        def one(m):
            name = m.group(0)
            if name in keep:
                return name
            if name in later and (m.start() == 0 or text[m.start() - 1] != "."):
                return name + "_lem"
            if name in lemmas:
                return lemmas[name]
            if name in words:
                return words[name]
            return snake(name) if camel and is_camel(name) and "-" not in name else name

        return WORD.sub(one, text)

    def write(path, old, new):
        if old != new:
            with open(path, "w", encoding="utf-8") as f:
                f.write(new)

    for path in files(".antt"):
        text = read(path)
        write(path, text, turn(text, kept.get(path, set()), True, late.get(path, set())))
    for path in files(".rt"):
        text = read(path)
        parts, at = [], 0
        for m in STRING.finditer(text):
            parts.append(turn(text[at : m.start()], kept.get(path, set()), True))
            parts.append(m.group(0))
            at = m.end()
        parts.append(turn(text[at:], kept.get(path, set()), True))
        write(path, text, "".join(parts))
    for path in files(".edit"):
        text = read(path)
        write(path, text, turn(text, set(), True))
    for folder in ("docs", "docs/orders", "."):
        for name in sorted(os.listdir(folder)):
            if not name.endswith(".md") or name.startswith("PORT"):
                continue
            path = os.path.join(folder, name)
            text = read(path)
            text2 = re.sub(r"`[^`\n]*`", lambda m: turn(m.group(0), set(), False), text)
            text2 = WORD.sub(lambda m: words.get(m.group(0), m.group(0)), text2)
            write(path, text, text2)


if __name__ == "__main__":
    main()
