#!/usr/bin/env python3
"""Turns the repository's own names of definitions, constructors, fields and lemmas from camel case and dashes to snake case.

usage: python3 tools/respell.py [--look]   at the top of the repository, once, after port.py and before any edit by hand; --look only lists what falls together

A name counts as the repository's own where a file of specs/ or proofs/ declares it. Names of functions, goals, modules and types keep their spelling. Where
two names would fall together, EXCEPT below says what stands for each.
"""
import os
import re
import sys
import collections

EXCEPT = {
    "at-entry": "of_entry",
    "tree-of": "tree_is",
    "first-use": "first_use_lem",
    "leaf-there": "leaf_there_lem",
    "uses-next": "uses_next_lem",
    "is-none": "is_none_lem",
    "laid-within": "laid_within_lem",
    "isKK": "is_kk",
    "isKOf": "is_k_of",
    "labelStages": "labelling_stages",
    "weightDigits": "digits_of_weight",
    "label-at": "label_at_lem",
    "rule-size": "rule_size_lem",
}
# Names in snake case already, which would hide one that comes to be spelled alike: in these files they are lemmas.
IN_FILES = [
    ("by_tests", "by_tests_lem", ["generator/proofs/Between.antt"]),
    ("each_same", "each_same_lem", ["short_codes/proofs/Holding.antt"]),
    ("has_words", "has_words_lem", ["table/proofs/Words.antt", "index/proofs/Indexing.antt"]),
    ("is_leaf", "is_leaf_lem", ["labelled/proofs/Forms.antt"]),
]
HEAD = re.compile(r"^(\s*)((?:(?:pub|abbrev|unfoldable|data|record|opaque)\s+)*)([^\s:{}()\[\];,\"]+)\s*(?:\{[^}]*\}\s*)*:\s")
GOAL = re.compile(r":\s*(?:\(t : ℕ\) → )?\s*(?:[\w-]+\.)?(?:Need-|invariant-|decreases-)|: goal\.")


def walk(root, ends):
    for folder, dirs, files in os.walk(root):
        dirs[:] = sorted(d for d in dirs if d not in ("out", "target", ".git"))
        for f in sorted(files):
            if f.endswith(ends):
                yield os.path.join(folder, f)


def odd(name):
    return name[:1].islower() and ("-" in name or re.search(r"[A-Z]", name)) and not re.search(r"[^\w'-]", name)


def snake(name):
    name = name.replace("-", "_")
    return re.sub(r"(?<=[a-z0-9])([A-Z])", lambda m: "_" + m.group(1).lower(), name)


def kind_of(path):
    parts = path.split("/")
    i = parts.index("crates")
    if parts[i + 2] == "specs":
        return "spec"
    return "lemma" if len(parts) == i + 4 else "own proof"


def declared(root):
    """Each odd own name, with the kinds of files that declare it."""
    found = collections.defaultdict(set)
    for p in walk(os.path.join(root, "crates"), (".antt",)):
        kind = kind_of(p)
        with open(p, encoding="utf-8") as f:
            lines = f.read().split("\n")
        goals = set()
        for l in lines:
            m = HEAD.match(l)
            if m and GOAL.search(l):
                goals.add(m.group(3))
        for l in lines:
            if l.lstrip().startswith(("--", "use ", "elim", "let ", "|")):
                continue
            m = HEAD.match(l)
            if not m or not odd(m.group(3)) or m.group(3) in goals:
                continue
            indent = len(m.group(1))
            if indent == 0 or kind != "own proof" or (indent == 2 and "pub" in m.group(2)):
                found[m.group(3)].add(kind)
    for p in walk(os.path.join(root, "crates"), (".rt",)):
        with open(p, encoding="utf-8") as f:
            for m in re.finditer(r"ghost (\S+):", f.read()):
                if odd(m.group(1)):
                    found[m.group(1)].add("ghost")
    return found


def meanings(found):
    """The new name of each: a lemma that would fall together with a definition ends in _lem."""
    new = {n: EXCEPT.get(n, snake(n)) for n in found}
    by = collections.defaultdict(set)
    for n, s in new.items():
        by[s].add(n)
    for s, ns in by.items():
        if len(ns) > 1:
            for n in ns:
                if "-" in n:
                    new[n] = s + "_lem"
    return new


def look(root, new, names):
    """Names that would be the same in one file, and are not now."""
    by = collections.defaultdict(set)
    for n, s in new.items():
        by[s].add(n)
    for s, ns in sorted(by.items()):
        if len(ns) > 1:
            print("two:", s, *sorted(ns))
    there = collections.defaultdict(set)
    words = re.compile(r"(?<![\w'◌-])(?:[\w'-])+")
    for p in walk(os.path.join(root, "crates"), (".antt", ".rt")):
        with open(p, encoding="utf-8") as f:
            text = f.read()
        text = "\n".join(re.sub(r"(--|//).*", "", l) for l in text.split("\n"))
        for n, s, files in IN_FILES:
            if os.path.relpath(p, os.path.join(root, "crates")) in files:
                text = re.sub(rf"(?<![\w'◌-]){n}(?![\w'◌-])", s, text)
        has = set(words.findall(text))
        for n in names.findall(text):
            if new[n] in has:
                there[(n, new[n])].add(os.path.relpath(p, root))
    for (n, s), ps in sorted(there.items()):
        print("there:", n, s, len(ps), *sorted(ps)[:3])
    print(len(new), "names")


def respelled(path, text, turn, names):
    """The text of a file: names in code, names between backticks, and in a comment of antt the names in camel case."""
    ticks = lambda l: re.sub(r"`[^`]*`", lambda m: names.sub(turn, m.group(0)), l)
    if path.endswith(".md"):
        return "\n".join(ticks(l) for l in text.split("\n"))
    if path.endswith(".edit"):
        return "\n".join(names.sub(turn, l) if l.startswith(("old:", "new:")) else ticks(l) for l in text.split("\n"))
    mark = "--" if path.endswith(".antt") else "//"
    out = []
    for l in text.split("\n"):
        i = l.find(mark)
        code, said = (l, "") if i < 0 else (l[:i], l[i:])
        if mark == "//":
            code = "".join(p if k % 2 else names.sub(turn, p) for k, p in enumerate(re.split(r'("(?:[^"\\]|\\.)*")', code)))
        else:
            code = names.sub(turn, code)
        said = ticks(said)
        said = names.sub(lambda m: m.group(0) if "-" in m.group(1) else turn(m), said)
        out.append(code + said)
    return "\n".join(out)


def main(argv):
    root = os.getcwd()
    new = meanings(declared(root))
    names = re.compile(r"(?<![\w'◌-])(" + "|".join(sorted(map(re.escape, new), key=len, reverse=True)) + r")(?![\w'◌-])")
    if "--look" in argv:
        look(root, new, names)
        return 0
    turn = lambda m: new[m.group(1)]
    pages = [os.path.join(root, "README.md"), *walk(os.path.join(root, "docs"), (".md",))]
    for p in [*walk(os.path.join(root, "crates"), (".antt", ".rt", ".edit")), *pages]:
        with open(p, encoding="utf-8") as f:
            old = f.read()
        text = old
        for n, s, files in IN_FILES:
            if os.path.relpath(p, os.path.join(root, "crates")) in files:
                text = re.sub(rf"(?<![\w'◌-]){n}(?![\w'◌-])", s, text)
        text = respelled(p, text, turn, names)
        if text != old:
            with open(p, "w", encoding="utf-8") as f:
                f.write(text)
    print(len(new), "names in snake case")
    return 0


if __name__ == "__main__":
    raise SystemExit(main(sys.argv[1:]))
