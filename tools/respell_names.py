#!/usr/bin/env python3
"""Respells the definitions and lemmas of this repository: words in snake case, types in camel case.

usage: python3 tools/respell_names.py [--dry]        at the top of the repository, once, right after the kit's port.py

A name with dashes that the repository declares (in specs/, in proofs/, or as a local name of a proof) gets underscores; a type
(a record, a data type, or a definition that gives a type) loses its dashes and begins each word with a capital. Names of the
kit's library, names of goals and steps (which the prover makes), Rust code, strings and comments stay. With --dry it only
prints the table. It prints names that fall together in one file.
"""

import collections
import os
import re
import sys

PART = r"(?:[^\W\d][\w']*)"
TOKEN = re.compile(r"(?<![\w'\-])([^\W\d][\w']*(?:-(?:[\w']+|\+\+))*)(?![\w'])")
DECLARED = re.compile(r"^(\s*)(?:abbrev\s+|unfoldable\s+)?(?:pub\s+)?(record\s+|data\s+)?([^\W\d][\w'\-+]*)((?:\s*[({][^\n]*)?)\s*:\s(.*)$", re.M)


def crates():
    return sorted(c for c in os.listdir("crates") if os.path.isdir(os.path.join("crates", c, "src")))


def files(ends):
    for folder, dirs, names in os.walk("crates"):
        dirs[:] = sorted(d for d in dirs if d not in ("out", "data"))
        for n in sorted(names):
            if n.endswith(ends):
                yield os.path.join(folder, n)


def read(p):
    with open(p, encoding="utf-8") as f:
        return f.read()


def without_comments(t):
    return re.sub(r"--(?![\w]).*", "", t)


def of_function(p):
    """A proof file of a function, whose names the prover makes."""
    return os.path.basename(p) in ("Answers.antt", "Invariants.antt", "Proof.antt")


def imports(t):
    for m in re.finditer(r"^\s*(?:ghost\s+)?use\s+([^;{\n]+?)\.\{([^}]*)\}", t, re.M):
        for n in m.group(2).split(","):
            n = n.strip()
            if n:
                yield m.group(1), n.split(" as ")[0].strip()


def gather():
    own = {"Rattle." + c for c in crates()}
    library, goals, types, declared = set(), set(), set(), set()
    for p in files((".antt", ".rt")):
        t = without_comments(read(p)) if p.endswith(".antt") else read(p)
        for path, n in imports(t):
            mine = any(path == o or path.startswith(o + ".") for o in own)
            if not mine:
                library.add(n)
            elif path.endswith((".Goals", ".Given")):
                goals.add(n)
        if not p.endswith(".antt"):
            continue
        for m in re.finditer(r"\bgoal\.([\w'\-+]+)", t):
            goals.add(m.group(1))
        for m in DECLARED.finditer(t):
            name, said = m.group(3), (m.group(4) + " " + m.group(5))
            if m.group(3) in ("use", "module", "mod"):
                continue
            declared.add(name)
            if m.group(2) or re.search(r"(?:^|→\s*|\s)Type 0\s*$", m.group(5).rstrip()):
                if not m.group(1) or m.group(2) or name[0].isupper():
                    types.add(name)
    declared -= goals
    return library, goals, types - goals, declared


def camel(n):
    return "".join(w[:1].upper() + w[1:] for w in re.split(r"[-_]", n) if w)


def main():
    dry = "--dry" in sys.argv[1:]
    library, goals, types, declared = gather()
    table, left = {}, set()

    def new(n, dotted):
        if n in goals or n in library and n not in declared:
            return n
        if n in types and (n[0].isupper() or "-" in n or "_" in n):
            if n[0].isupper():
                return camel(n)
            return camel(n)
        if "-" not in n:
            return n
        if dotted and n not in declared:
            return n
        r = n.replace("-++", "_joined").replace("-", "_")
        return r + "_lem" if r in library else r

    def turn(text, seen, code=False):
        def one(m):
            n = m.group(1)
            dotted = m.start() > 0 and text[m.start() - 1] == "."
            r = new(n, dotted or code)
            if code and "-" in r:
                left.add(f"left: {p}: {n}")
            if r != n:
                table[n] = r
            seen.setdefault(r, set()).add(n)
            return r
        return TOKEN.sub(one, text)

    def antt(t, seen):
        out = []
        for line in t.split("\n"):
            m = re.search(r"(^|\s)--(?![\w])", line)
            cut = m.start() if m else len(line)
            out.append(turn(line[:cut], seen) + line[cut:])
        return "\n".join(out)

    def rust(t, seen):
        parts = re.split(r'(//[^\n]*|b?"(?:\\.|[^"\\])*")', t)
        return "".join(turn(x, seen, True) if i % 2 == 0 else x for i, x in enumerate(parts))

    for p in files((".antt", ".rt", ".edit")):
        t, seen = read(p), {}
        u = rust(t, seen) if p.endswith(".rt") else antt(t, seen)
        for r, olds in sorted(seen.items()):
            if len(olds) > 1:
                print(f"together: {p}: {' '.join(sorted(olds))} -> {r}")
        if u != t and not dry:
            with open(p, "w", encoding="utf-8") as f:
                f.write(u)
    for page in ["README.md"] + [os.path.join("docs", n) for n in sorted(os.listdir("docs")) if n.endswith(".md")]:
        t = read(page)
        u = re.sub(r"`([^`\n]+)`", lambda m: "`" + TOKEN.sub(lambda k: table.get(k.group(1), k.group(1)), m.group(1)) + "`", t)
        if u != t and not dry:
            with open(page, "w", encoding="utf-8") as f:
                f.write(u)
    for line in sorted(left):
        print(line)
    if dry:
        for n in sorted(table):
            print(n, "->", table[n])
    print(f"{len(table)} names respelled")


if __name__ == "__main__":
    main()
