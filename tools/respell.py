#!/usr/bin/env python3
"""Brings this repository's own definitions and lemmas to the spelling of today's Rattle, after its port.py has run: words in snake case.

usage: python3 tools/respell.py    at the top of the repository, once

It goes by text. A name that a file of specs/, or one of proofs/ beside the folders of the functions, gives to a definition, a lemma or a field is
respelled wherever it stands in crates/, in the must-fail edits too, which port.py leaves as they were; so is each local name with a capital inside.
Types and modules, functions of src/, exported names, strings and goals keep theirs. A lemma whose name would fall together with that of a
definition ends in `_lem`. It prints what it renamed so.
"""

import collections
import os
import re

LETTER = r"A-Za-z0-9_'\-·"
HUMP = re.compile(rf"(?<![{LETTER}])[a-z][a-z0-9]*(?:[A-Z][a-z0-9]*)+(?![{LETTER}])")
HEAD = re.compile(r"^[ ]*(?:(?:pattern|unfoldable|abbrev|pub|axiom|ruleset)[ ]+)*([^\s:{(,]+)[ ]*(?:\{[^}\n]*\}[ ]*)?:(?!:)", re.M)
USE = re.compile(r"^use[ ]+(\S+)\.\{([^}]*)\}", re.M)
DASHED = re.compile(rf"(?<![{LETTER}])[a-z][A-Za-z0-9_']*(?:-[A-Za-z0-9_']+)+(?![{LETTER}])")
STRING = re.compile(r'b?"(?:[^"\\\n]|\\.)*"')
# what port.py renamed in .antt and .rt files and not in edits: words of the older library, and names whose new spelling a library has
WORDS = {"getD": "get_or", "′": "'"}


def snake(name):
    name = name.replace("-", "_")
    return re.sub(r"(?<=[a-z0-9])([A-Z])", lambda m: "_" + m[1].lower(), name) if name[:1].islower() else name


def files():
    for folder, dirs, names in os.walk("crates"):
        dirs[:] = sorted(d for d in dirs if d not in ("out", "data"))
        for name in sorted(names):
            if name.endswith((".antt", ".rt", ".edit")):
                yield os.path.join(folder, name)


def is_theory(path):
    """A file of specs/, or one right in proofs/."""
    parts = path.split(os.sep)
    return path.endswith(".antt") and len(parts) == 4 and parts[2] in ("specs", "proofs")


def table(texts):
    """What each name becomes."""
    tops = {n for path, text in texts.items() if is_theory(path) for n in HEAD.findall(text)}
    # a name with a dash that no library gives: a parameter, a name that a `use` or a `let` gives
    mine = tuple(f"Rattle.{c}." for c in os.listdir("crates"))
    given = {n.strip() for t in texts.values() for m in USE.finditer(t) if not (m[1] + ".").startswith(mine) for n in m[2].split(",")}
    used = {n for p, t in texts.items() if is_theory(p) for n in DASHED.findall(re.sub("--.*", "", t))}
    tops |= used - given
    words = {n for n in tops if re.fullmatch(r"[a-z][A-Za-z0-9_']*(?:-[A-Za-z0-9_']+)*|getD-.*", n)}
    locals_ = {h for p, t in texts.items() for h in HUMP.findall(STRING.sub("", t)) if not re.fullmatch(r"x[0-9A-F]+|x[0-9A-F].*", h)}
    humps = {n for n in words | locals_ if re.search("[a-z0-9][A-Z]", n) and "-" not in n}
    new = {n: WORDS.get(n, snake(n)) for n in humps}
    taken = {n for n in words if n == snake(n)} | {new[n] for n in humps if n in words}
    for n in sorted(words):
        if "-" in n:
            to = snake(n.replace("getD", "get_or"))
            new[n] = to + "_lem" if to in taken else to
    # a lemma that port.py has put into snake case, and that a definition now comes to
    for n in sorted(words):
        if n == snake(n) and n in tops and any(new[h] == n and h in tops for h in humps):
            new[n] = n + "_lem"
    return {a: b for a, b in new.items() if a != b}, words


def respell(path, text, new):
    own = set(HEAD.findall(text)) if path.endswith("Proof.antt") else set()
    # a function of src/ may have the name of a lemma that ends in `_lem` now
    code = {n for n, t in new.items() if t.endswith("_lem") and "-" not in n}
    dashed = {n: t for n, t in new.items() if "-" in n and n not in own}
    plain = {n: t for n, t in new.items() if "-" not in n and n not in own and not (n in code and not path.endswith(".antt"))}

    def word(m):
        return plain.get(m[0], dashed.get(m[0], m[0]))

    def all_of(part):
        part = re.sub(rf"(?<![{LETTER}.])[A-Za-z][{LETTER}]*(?![{LETTER}])", word, part)
        # behind a dot: a field, or the last part of a module's path; in a file of a function a goal's name, which stays
        if is_theory(path):
            part = re.sub(rf"(?<=\.){DASHED.pattern.split(')', 1)[1]}", word, part)
        return re.sub(rf"(?<=\.)[a-z][A-Za-z0-9]*(?![{LETTER}])", lambda m: m[0] if m[0] in code else plain.get(m[0], m[0]), part)

    out, at = [], 0
    for m in STRING.finditer(text) if path.endswith(".rt") else []:
        out += [all_of(text[at:m.start()]), m[0]]
        at = m.end()
    return "".join(out) + all_of(text[at:])


def main():
    texts = {p: open(p, encoding="utf-8").read() for p in files()}
    code = {p: t for p, t in texts.items() if not p.endswith(".edit")}
    new, words = table(code)
    edits = dict(new)
    final = {new.get(w, w) for w in words}
    for p, t in texts.items():
        if p.endswith(".edit"):
            for n in re.findall(rf"(?<![{LETTER}.])[a-z][{LETTER}]*", t):
                to = WORDS.get(n, snake(n.replace("getD", "get_or")))
                if n not in edits and n != to and to in final:
                    edits[n] = to
    edits.update({k: v for k, v in WORDS.items() if k != "′"})
    for p, t in texts.items():
        u = respell(p, t, edits if p.endswith(".edit") else new)
        if u != t:
            open(p, "w", encoding="utf-8").write(u)
    for a, b in sorted(new.items()):
        print(a, b)


if __name__ == "__main__":
    main()
