#!/usr/bin/env python3
"""Brings this repository's own names to today's Rattle's spelling, once, after its port.py.

usage: tools/spell_names.py [--dry] [--names]        at the top of the repository

--dry writes nothing, --names prints each pair of names. It has run: where docs/PORT.md stands, it does nothing. To
see what it did, run it on the commit that the first line of docs/PORT.md names, after port.py.

A word (a function of the notation, a lemma, a field, a constructor) is in snake case: `topCode` becomes
`top_code`, `early-by` becomes `early_by`. A dash stays where it joins two names that are functions of the
notation, as in `get_or-sets_other`; a lemma that would get its function's name gets `_lem`. Types and modules had
upper camel case already. Names of src/, exported C names, strings, inputs and outputs are left alone. The script
stops, and writes nothing, where two names would fall together.
"""

import glob
import os
import re
import sys

SIGNATURE = re.compile(r"^\s*(?:abbrev |unfoldable |opaque )*(?:pub )?(?:abbrev |unfoldable )*"
                       r"([^\s:.(){}λ=;,|]+)(?: \{[^}]*\})*(?: \([^)]*\))* : ")
USED = re.compile(r"^use ([^\s{]+)\.\{([^}]*)\}", re.M)
WORD = re.compile(r"[A-Za-z_][\w'-]*")
LOCAL = re.compile(r"(?:\blet |\()([a-z][\w']*-[\w'-]*)(?= :| =)")
CAMEL = re.compile(r"^[a-z][^\s-]*[a-z0-9][A-Z]|^[a-z]+-.*[a-z][A-Z]")
# names in the right spelling already that would fall together with a turned one in the same file
BESIDE = {("crates/path_rules/proofs/Path/RunLaws.antt", "on_row"): "on_row_lem",
          ("crates/path_rules/proofs/Path/ShutOutLaws.antt", "shut_out"): "shut_out_lem",
          ("crates/path_rules/proofs/Path/Claims.antt", "shut_out"): "shut_out_lem"}
# functions of the library that lemmas are named after
LIBRARY = set("length drop take append set sets sum map mod div pow add sub mul zero suc min max get_or leb ltb eqb not".split())


def files(*patterns):
    found = []
    for p in patterns:
        found += glob.glob(p, recursive=True)
    return sorted(f for f in set(found) if "/out/" not in f)


def read(path):
    with open(path, encoding="utf-8") as f:
        return f.read()


def code(text):
    return "\n".join(line.split("--")[0] if line.lstrip().startswith("--") else line for line in text.split("\n"))


def main(argv):
    if set(argv) - {"--dry", "--names"}:
        print(__doc__)
        return 2
    if os.path.exists("docs/PORT.md"):
        print("tools/spell_names.py has run in this repository (docs/PORT.md): nothing was changed")
        return 1
    dry = "--dry" in argv
    antt = files("crates/*/specs/**/*.antt", "crates/*/proofs/**/*.antt")
    walks = [f for f in antt if os.path.basename(f) == "Proof.antt"]
    laws = [f for f in antt if f not in set(walks)]
    library, own, functions, words = set(), set(), set(LIBRARY), {}
    for f in antt:
        text = code(read(f))
        for m in USED.finditer(text):
            if not m[1].startswith("Rattle.") or m[1].startswith("Rattle.std"):
                library |= {n.strip() for n in m[2].split(",")}
    for f in antt:
        text = code(read(f))
        for line in text.split("\n"):
            m = SIGNATURE.match(line)
            if m and re.match(r"[a-z]", m[1]):
                if f in set(walks) and (re.search(r": (tie\.Need|\{M : |statement)", line) or re.search(r"-spec$|^(invariant|decreases)-", m[1])):
                    continue
                own.add(m[1])
                if CAMEL.match(m[1]) and "-" not in m[1]:
                    functions.add(snake(m[1]))
        if f in set(laws):
            own |= {m[1] for m in LOCAL.finditer(text)}
    taken = {n for n in own if "-" not in n}
    own = {n for n in own if n not in library and ("-" in n or CAMEL.match(n))}
    turn = {n: turned(n, functions) for n in own if "-" not in n}
    taken |= set(turn.values())
    for n in own:
        if "-" in n:
            t = turned(n, functions)
            turn[n] = t + "_lem" if t in taken else t
    turn = {n: t for n, t in turn.items() if n != t}

    # names that fall together: with one another, or with a word that stands in some file already
    bad = []
    back = {}
    for n, t in sorted(turn.items()):
        if t in back:
            bad.append(f"{n} and {back[t]} both become {t}")
        back[t] = n
    for f in antt:
        for w in set(WORD.findall(code(read(f)))):
            words.setdefault(w, []).append(f)
    for t, n in sorted(back.items()):
        if t in words and n in words:
            both = sorted(set(words[t]) & set(words[n]))
            print(f"look: {n} becomes {t}, which stands in {len(words[t])} files, in {len(both)} together: {' '.join(both[:3])}")
    if "--names" in argv:
        for n, t in sorted(turn.items()):
            print(n, t)
    if bad:
        print("\n".join(bad))
        return 1
    changed = 0
    for f in files("crates/*/specs/**/*.antt", "crates/*/proofs/**/*.antt", "crates/*/src/**/*.rt", "crates/*/must-fail*/*.edit",
                   "README.md", "docs/*.md", "planner/*.md"):
        text = read(f)
        walk, law, page = f in set(walks), f.endswith(".antt"), f.endswith(".md")

        def one(m):
            w, before = m[0], text[m.start() - 1:m.start()]
            if (f, w) in BESIDE:
                return BESIDE[f, w]
            if w not in turn:
                return w
            if CAMEL.match(w):
                return turn[w]
            if f.endswith(".rt"):
                return w
            if walk and before == ".":
                return w
            if page and not (before == "`" and text[m.end():m.end() + 1] == "`"):
                return w
            return turn[w]

        new = WORD.sub(one, text)
        if new != text:
            changed += 1
            if not dry:
                with open(f, "w", encoding="utf-8") as out:
                    out.write(new)
    print(f"{len(turn)} names, {changed} files")
    return 0


def snake(name):
    return re.sub(r"(?<=[a-z0-9])([A-Z])", lambda m: "_" + m[1].lower(), name)


def turned(name, functions):
    parts = name.split("-")
    if not name[0].islower():
        return name
    parts = [{"getD": "get_or"}.get(p) or (snake(p) if not p[:1].isupper() else p) for p in parts]
    out = parts[0]
    for i, p in enumerate(parts[1:], 1):
        joins = p in functions and parts[i - 1] in functions
        out += ("-" if joins else "_") + p
    return out


if __name__ == "__main__":
    sys.exit(main(sys.argv[1:]))
