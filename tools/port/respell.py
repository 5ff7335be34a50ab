#!/usr/bin/env python3
"""Gives the repository's own definitions and lemmas the spelling of today's Rattle: words in snake case.

usage: python3 tools/port/respell.py [--check]      at the top of a checkout, once, right after port.py

A name that a file of specs/ or proofs/ declares and that has a capital inside (`isCanvas`) or a dash (`row-pix`) is written with
underscores (`is_canvas`, `row_pix`), wherever an .antt file, a clause or a `ghost use` line of an .rt file, or a must-fail edit uses it.
Names of types and modules, of src/, of the libraries and of what Rattle generates stay. Where two names of one scope would fall together,
the lemma gets `_lem`. The proofs that walk a function (Proof.antt) keep the names that they declare for themselves: answers.py turns those.
"""
import collections
import glob
import os
import re
import sys

WORD = re.compile(r"""--[^\n]*|"(?:[^"\\]|\\.)*"|«[^»]*»|[^\s(){}.;,@"«»\[\]\\]+""")
DECLARED = re.compile(r"^(?:  )?(?:abbrev |unfoldable |pub )*(?!use |mod |record |data |module |where|let |in )([^\s(){}.;,@\"«»\[\]\\:]+)(?: \{[^}]*\})? :(?: |$)", re.M)
USE = re.compile(r"^(?:pub )?(?:ghost )?use ([\w.·+<>-]+?)(?:\.\{([^}]*)\})?(?: as [\w']+)?;?$", re.M)


def snake(name):
    if not re.match(r"[a-z]", name):
        return name
    name = re.sub(r"(?<=[a-z0-9'])-(?=[A-Za-z0-9])", "_", name)
    name = re.sub(r"(?<=[a-z0-9])([A-Z]+)(?=[a-z0-9_'-]|$)", lambda m: "_" + m[1].lower(), name)
    return name


def files():
    for f in sorted(glob.glob("crates/*/specs/**/*.antt", recursive=True) + glob.glob("crates/*/proofs/**/*.antt", recursive=True)):
        yield f


def module(f):
    return "Rattle." + f[len("crates/"):-len(".antt")].replace("/", ".")


def items(text):
    """(path, name, alias) of each name that a file imports."""
    for path, names in USE.findall(text):
        for it in filter(None, (n.strip() for n in names.split(","))):
            name, _, alias = it.partition(" as ")
            yield path, name, alias or name


def main():
    check = "--check" in sys.argv[1:]
    texts = {f: open(f, encoding="utf-8").read() for f in files()}
    own = {}
    for f, t in texts.items():
        if not f.endswith("/Proof.antt"):
            own[module(f)] = {n for n in DECLARED.findall(t)}
    aliases = {a for t in texts.values() for p, n, a in items(t) if a != n and not a.startswith("callee")}
    spelled = {n for ns in [*own.values(), aliases] for n in ns if snake(n) != n}

    # names of one scope that would fall together: the one with a dash is the lemma
    lemmas = set()
    for f, t in texts.items():
        scope = collections.defaultdict(set)
        here = set() if f.endswith("/Proof.antt") else own[module(f)]
        for n in here | {a for p, n, a in items(t)}:
            scope[snake(n) if n in spelled else n].add(n)
        for to, ns in scope.items():
            if len(ns) > 1:
                dashed = sorted(n for n in ns if "-" in n and n in spelled)
                camel = sorted(n for n in ns if "-" not in n and n in spelled)
                print(f"together: {f}: {sorted(ns)}")
                lemmas.update(dashed or camel)
    to = {n: snake(n) + ("_lem" if n in lemmas else "") for n in spelled}
    to["noCopy"] = "no_copy"  # a definition, whose lemma port.py had respelled before it

    # a name of a library that a file imports stays there
    def turned(text, outside):
        def one(m):
            w = m[0]
            if w.startswith("--"):
                return re.sub(r"`?[\w'-]+", lambda k: k[0][:k[0][0] == "`"] + to.get(k[0].lstrip("`"), k[0].lstrip("`")) if k[0][0] == "`" or re.search(r"[a-z][A-Z]", k[0]) else k[0], w)
            if w[0] in "\"«" or w in outside:
                return w
            return to.get(w, w)
        return WORD.sub(one, text)

    changed = 0
    for f, t in texts.items():
        if f.startswith("crates/scaled/proofs/"):
            t = re.sub(r"(?<![.\w])no_copy(?![\w.])(?! : \{)", "no_copy_lem", t)
        outside = {a for p, n, a in items(t) if not (p in own or p.startswith("Rattle.") and any(p == m or m.startswith(p + ".") for m in own))}
        new = turned(t, outside)
        if new != t:
            changed += 1
            if not check:
                open(f, "w", encoding="utf-8").write(new)
    for f in sorted(glob.glob("crates/*/src/**/*.rt", recursive=True) + glob.glob("crates/*/must-fail/*.edit")):
        t = open(f, encoding="utf-8").read()
        new = re.sub(r"(?<![\w'-])[a-z][\w']*(?:-[\w']+)*(?![\w'-])", lambda m: to.get(m[0], m[0]) if re.search(r"[A-Z]|-", m[0]) else m[0], t)
        if new != t:
            changed += 1
            if not check:
                open(f, "w", encoding="utf-8").write(new)
    print(f"{len(to)} names respelled, {len(lemmas)} of them with _lem; {changed} files")
    with open("/tmp/respelled.txt", "w") as o:
        for n in sorted(to):
            print(n, to[n], file=o)


if __name__ == "__main__":
    main()
