#!/usr/bin/env python3
"""Turns each Proof.antt of a crate into Invariants.antt and Answers.antt.

usage: python3 tools/convert_proofs.py CRATE NAMES.json     NAMES.json is what `rt check --generated DIR --old-names` wrote in the crate

A goal answered by `search rules` alone is left to the check. Each name that is not known is left as it stands: the check says which.
"""

import json
import os
import re
import sys

LIBRARY = "Rattle.%s.proofs.%s"


def norm(s):
    return s.replace("-", "_")


def blocks(text):
    """The header's lines, and the declarations: (lines)."""
    header, decls, current = [], [], None
    for line in text.split("\n"):
        if line.startswith("use ") or (line.startswith("--") and not decls and current is None):
            header.append(line)
            continue
        if not line.strip():
            if current:
                decls.append(current)
            current = None
            continue
        if current is None:
            current = []
        elif re.match(r"^(abbrev |pub |unfoldable )*[^\s:]+ :(?!\S)", line) and not line.startswith(" "):
            decls.append(current)
            current = []
        current.append(line)
    if current:
        decls.append(current)
    return header, decls


def step_names(info):
    steps = {}
    for old, parent, pair, callee, rest in info["places"]:
        steps.setdefault(norm(pair[0]), pair[1])
    for old, new in [(l[0][0], l[0][1]) for l in info["loops"]]:
        steps[norm(old)] = new
    steps.setdefault("loop_test", "loop-test")
    return steps


def flatten(body, steps):
    """`c.before.before.step.x` is `c.step.x`: each step is a field of `c`."""
    aliases = {"c"}
    out = []
    # let x = c.before.before in
    lines = body.split("\n")
    kept = []
    for line in lines:
        m = re.match(r"^\s*let ([\w'-]+) = ([\w'-]+)((?:\.before)*) in\s*$", line)
        if m and m.group(2) in aliases and (m.group(3) or m.group(2) in aliases):
            aliases.add(m.group(1))
            continue
        kept.append(line)
    body = "\n".join(kept)
    alt = "|".join(sorted((re.escape(a) for a in aliases), key=len, reverse=True))

    def path(m):
        fields = [f for f in m.group(2).split(".") if f and f != "before"]
        # a step named like a lemma that is respelled with `_lem`
        if fields and fields[0].endswith("_lem") and norm(fields[0][:-4]) in steps:
            fields[0] = fields[0][:-4]
        if fields and norm(fields[0]) in steps and fields[0] not in ("args", "requires", "ranges"):
            fields[0] = steps[norm(fields[0])]
            if len(fields) > 1:
                fields[1] = {"taken": "true", "left": "false"}.get(fields[1], fields[1])
        said = ".".join(["c"] + fields)
        # a test `!b` says now what `b` is
        return f"(ap not {said})" if len(fields) == 2 and fields[0].startswith("if-not-") and fields[1] in ("true", "false") else said

    return re.sub(r"(?<![\w.'-])(" + alt + r")((?:\.[\w₀′'-]+)+)", path, body), aliases


def invariant(new, decl, kind):
    text = "\n".join(decl)
    m = re.search(r"\n(?:unfolding [^\n]*\n)?" + r"([\w-]+)((?: [\w₀'-]+)*) =(.*)$", text, re.S)
    names, body = m.group(2).split(), m.group(3)
    for n in names:
        to = "l.initial." + n[:-1] if n.endswith("₀") else "l." + n
        body = re.sub(r"(?<![\w.'₀-])" + re.escape(n) + r"(?![\w'₀-])", lambda _: to, body)
    return f"abbrev pub {new} : goal.{new}\n{new} l ={body}"


def convert(crate, path, info):
    with open(path) as f:
        header, decls = blocks(f.read())
    function = os.path.dirname(path).split("proofs/", 1)[1].replace("/", ".")
    module = LIBRARY % (crate, function)
    needs = {norm(o): n for o, n in info["needs"]}
    fresh = {norm(n): n for o, n in info["needs"]}
    loops = {norm(l[0][0]): l[0][1] for l in info["loops"]}
    steps = step_names(info)
    invariants, answers, notes = [], [], []
    for d in decls:
        text = "\n".join(d)
        comments = [l for l in d if l.startswith("--")]
        d = [l for l in d if not l.startswith("--")]
        text = "\n".join(d)
        m = re.match(r"^((?:abbrev |pub |unfoldable )*)([^\s:]+) :\s*(.*)", text, re.S)
        if not m:
            notes.append("unread: " + text[:80])
            answers.append("\n".join(comments + d))
            continue
        name, kind = m.group(2), m.group(3)
        if "tie.close" in text:
            continue
        t = re.match(r"tie\.(invariant|decreases)-(\S+)", kind)
        if t:
            new = {"invariant": "invariant-", "decreases": "decreases-"}[t.group(1)] + loops.get(norm(t.group(2)), t.group(2))
            invariants.append("\n".join(comments + [invariant(new, d, t.group(1))]))
            continue
        t = re.match(r"tie\.Need-(\S+)", kind)
        if not t:
            answers.append("\n".join(comments + d))
            continue
        old = norm(t.group(1))
        new = needs.get(old) or needs.get(re.sub("^overflow_", "", old)) or needs.get(re.sub("^slice_bounds_", "part_", old)) or fresh.get(old)
        if new is None:
            notes.append("no goal " + t.group(1))
            new = "OLD-" + t.group(1)
        rest = text.split("\n", 1)[1]
        lines = rest.split("\n")
        unfold = [l for l in lines if l.startswith("unfolding")]
        lines = [l for l in lines if not l.startswith("unfolding")]
        body = "\n".join(lines)
        m = re.match(re.escape(name) + r"((?: [\w₀'κ-]+)*) =(.*)$", body, re.S)
        if not m:
            notes.append("clauses: " + name)
            answers.append("\n".join(comments + d))
            continue
        b = m.group(2)
        if not unfold and b.strip() in ("search rules", "tt"):
            continue
        b, aliases = flatten(b, steps)
        answers.append("\n".join(comments + [f"pub {new} : goal.{new}"] + unfold + [f"{new} c ={b}"]))
    uses = [l for l in header if l.startswith("use ") and ".Statement" not in l and not l.endswith("Tie as tie")]
    top = [l for l in header if not l.startswith("use ") and "Assumes nothing" not in l]
    top = [re.sub(r" meets its contract\.", ".", l) for l in top]

    def used(parts):
        body = "\n".join(parts)
        kept = []
        for u in uses:
            m = re.match(r"use ([^{]+)\.\{(.*)\}$", u)
            if not m:
                kept.append(u)
                continue
            items = []
            for i in m.group(2).split(","):
                i = i.strip()
                word = i.split()[-1]
                core = word.strip("◌")
                pieces = [p for p in word.split("◌") if p]
                if word.startswith("◌") or word.endswith("◌"):
                    here = all(p in body for p in pieces)
                else:
                    here = re.search(r"(?<![\w'-])" + re.escape(word) + r"(?![\w'-])", body) is not None
                if here:
                    items.append(i)
            if items:
                kept.append("use %s.{%s}" % (m.group(1), ", ".join(items)))
        return kept

    if any("(ap not " in a for a in answers):
        whole = "\n".join(uses)
        if not re.search(r"mathlib\.Core\.Path\.\{[^}]*\bap\b", whole):
            uses.append("use mathlib.Core.Path.{ap}")
        if not re.search(r"mathlib\.Core\.Bool\.\{[^}]*\bnot\b", whole):
            uses.append("use mathlib.Core.Bool.{not}")
    folder = os.path.dirname(path)
    os.remove(path)
    for parts, file, given in ((invariants, "Invariants.antt", "Given"), (answers, "Answers.antt", "Goals")):
        if not parts:
            continue
        lines = top[:1] + top[1:] if top else []
        with open(os.path.join(folder, file), "w") as f:
            f.write("\n".join(top + used(parts) + [f"use {module}.{given} as goal", ""]) + "\n" + "\n\n".join(parts) + "\n")
    if not os.listdir(folder):
        os.removedirs(folder)
    for n in notes:
        print(f"{path}: {n}")


def main():
    crate, names = sys.argv[1], json.load(open(sys.argv[2]))
    root = os.path.join("crates", crate, "proofs")
    keys = {}
    for k, v in names.items():
        m = re.match(r"Rattle-" + crate + r"-proofs\.(.*)\.Lts$", k)
        if m:
            keys[m.group(1)] = v
    for folder, _, files in sorted(os.walk(root)):
        if "Proof.antt" in files:
            function = folder[len(root) + 1 :].replace("/", ".")
            if function not in keys:
                print("no names for", function)
                continue
            convert(crate, os.path.join(folder, "Proof.antt"), keys[function])


main()
