#!/usr/bin/env python3
"""Brings the names of definitions and lemmas to today's spelling, once, after port.py: tools/respell.py [FOLDER].

A definition's name in camel case becomes one in snake case (`sidesOf`: `sides_of`). In the name of a lemma or a field a dash between words becomes an underscore (`tabulate-in`: `tabulate_in`); in a name of two words,
one before the name of a definition or of a function of the library stays (`sum-map`, `reflects-any`). A name that would fall together with another one stays as it is, but for those
listed below. Functions of src/ keep their names, as do types, modules, files, strings and the answers of a function's proof. Pages are not read; must-fail edits are.
"""
import glob
import os
import re
import sys

ROOT = os.path.abspath(sys.argv[1] if len(sys.argv) > 1 else ".")
# words of the library that a lemma's name can end with behind a dash
LIBRARY = "append map length set get_or take drop reverse add sub mul neg pow suc zero cons nil cond not or and max min abs nat_abs div mod".split()
TOKEN = re.compile(r"[^\s(){}\[\],;.`\"]+")
DECLARED = re.compile(r"^( *)((?:(?:abbrev|unfoldable|pub|record|data|ruleset)\s+)*)([^\s:({]+)\s*(?:[({].*)?:\s")


def snake(name):
    return re.sub(r"(?<=[a-z0-9])([A-Z])(?![A-Z])", lambda m: "_" + m.group(1).lower(), name)


def files(pattern):
    return sorted(glob.glob(f"{ROOT}/crates/*/{pattern}", recursive=True))


antt = files("specs/**/*.antt") + files("proofs/**/*.antt")
laws = files("specs/*.antt") + files("proofs/*.antt")
code = files("src/**/*.rt")
edits = files("must-fail/*.edit")
text = {path: open(path, encoding="utf-8").read() for path in antt + code + edits}
tokens = set()
for body in text.values():
    tokens.update(TOKEN.findall(body))

# what the files of definitions and laws declare, at any depth
defined = set()
lemmas = set()
declared = set()
words = set()
functions = set()
for path in code:
    functions.update(re.findall(r"\bfn (\w+)", text[path]))
for path in antt:
    for line in text[path].split("\n"):
        found = DECLARED.match(line)
        if not found:
            continue
        name = found.group(3)
        declared.add(name)
        if "/specs/" in path:
            defined.add(name)
            if not found.group(1):
                words.add(name)
        elif path in laws:
            lemmas.add(name)
        if re.match(r"[a-z]\w*[A-Z]", name):
            defined.add(name)

renamed = {}
taken = set(tokens)


def rename(name, to, makes_way=False):
    """name becomes to; a lemma that has that name makes way for a definition, and a function of src/ may share it"""
    if to == name:
        return
    if to in taken and not (to in functions and to not in declared):
        if not (makes_way and to in declared and to not in defined and to not in functions and f"{to}_lem" not in taken):
            clashes.append((name, to))
            return
        renamed[to] = f"{to}_lem"
        taken.add(f"{to}_lem")
    renamed[name] = to
    taken.add(to)
    declared.add(to)


clashes = []
# a field of two records elsewhere has that name too
renamed["doneAt"] = "done_at"
# a function of src/ has that name too, and one file a law of its own
renamed["sameAt"] = "same_at"
OWN = {"crates/shots/proofs/Decided.antt": {"same_at": "same_at_lem"}}
camel = sorted(n for n in defined | lemmas if "-" not in n and re.match(r"[a-z][a-z0-9_]*[A-Z]", n) and snake(n) != n and snake(n).lower() == snake(n))
for name in camel:
    if name in renamed:
        continue
    rename(name, snake(name), True)
known = {renamed.get(n, n) for n in words} | set(LIBRARY)


def joined(name):
    parts = [renamed.get(p, p) for p in name.split("-")]
    parts = [snake(p) if re.match(r"[a-z]", p) else p for p in parts]
    out = parts[0]
    for part in parts[1:]:
        plain = re.fullmatch(r"[a-z0-9_]+", part) and (len(parts) > 2 or part not in known) and re.search(r"\w$", out)
        out += ("_" if plain else "-") + part
    return out


for name in sorted(lemmas | defined):
    if "-" in name and re.match(r"[a-z]", name):
        rename(name, joined(name))

if __name__ == "__main__":
    if "--show" in sys.argv:
        for a, b in renamed.items():
            print(a, b)
        print("CLASHES")
        for a, b in clashes:
            print(a, b)
        sys.exit()
    for path, body in text.items():
        if path.endswith(".edit"):
            continue
        names = renamed if path.endswith(".antt") else {a: b for a, b in renamed.items() if "-" not in a}
        names = names | OWN.get(os.path.relpath(path, ROOT), {})
        new = TOKEN.sub(lambda m: names.get(m.group(), m.group()), body)
        if new != body:
            open(path, "w", encoding="utf-8").write(new)
    print(f"respell: {len(renamed)} names; {len(clashes)} would fall together and stay")
