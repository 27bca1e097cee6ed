#!/usr/bin/env python3
"""Turns the repository's own definitions and lemmas to snake case, once, after port.py.

usage: python3 tools/snake_names.py [--dry]     at the top of the repository

Definitions, lemmas, fields and import names that this repository declares in specs/ and proofs/ lose their dashes and camel case:
`no-single` becomes `no_single`, `leftIn` becomes `left_in`. Types keep their capital, and the dash that joins a type to a name stays.
Names of goals (in a Proof.antt, those whose type is the Tie's) stay. Where the new name is another name of the same file, a lemma gets `_lem`.
Functions of src/, strings, C names, inputs and outputs stay.
"""

import os
import re
import sys

WORD = r"[^\s(){}\[\],;.`\"@]"
NAME = re.compile(WORD + "+")
DECL = re.compile(r"(?m)^ *(?:abbrev |unfoldable )?(?:pub )?(" + WORD + r"+)(?= (?:[({].*)?:(?: |$))")
FIELD = re.compile(r"(?m)^  (?:pub )?(" + WORD + r"+) (?:[({].*)?: ")
USE = re.compile(r"(?m)^(?:pub )?(?:ghost )?use ([\w.·+-]+)\.\{([^}]*)\}")


def files(root, ends):
    for folder, dirs, names in os.walk(root):
        dirs[:] = sorted(d for d in dirs if d not in ("out", ".git", "target"))
        for n in sorted(names):
            if n.endswith(ends):
                yield os.path.join(folder, n)


def is_name(n):
    return re.fullmatch(r"[^\W\d][\w'-]*(?:-[\w']+)*", n) is not None and n not in ("where", "λ")


def snake(n):
    """The name in snake case, or the name itself."""
    if re.match(r"[A-Z]", n):
        head, dash, rest = n.partition("-")
        return head + ("-" + snake(rest) if dash else "")
    return re.sub(r"(?<=[a-z0-9])([A-Z])", lambda m: "_" + m.group(1).lower(), n.replace("-", "_"))


def goals_of(path, text):
    """The names of goals in a Proof.antt: those whose type is the Tie's."""
    return set(re.findall(r"(?m)^(" + WORD + r"+) : (?:\(.*\) → )?tie\.", text)) if path.endswith("Proof.antt") else set()


def imports(text):
    """The names that a file imports: name as it is known here -> (module, its name there)."""
    got = {}
    for m in USE.finditer(text):
        for part in m.group(2).split(","):
            part = part.strip()
            if not part:
                continue
            there, _, here = part.partition(" as ")
            got[(here or there).strip()] = (m.group(1), there.strip())
    return got


def main():
    dry = "--dry" in sys.argv
    crates = sorted(os.listdir("crates"))
    own = {f"Rattle.{c}" for c in crates}

    def is_own(module):
        return ".".join(module.split(".")[:2]) in own

    texts = {p: open(p, encoding="utf-8").read() for p in files("crates", (".antt", ".rt"))}
    # what the repository declares
    declared, by_file, fields = {}, {}, set()
    for p, t in texts.items():
        if not p.endswith(".antt"):
            continue
        goals = goals_of(p, t)
        here = set()
        for m in DECL.finditer(t):
            n = m.group(1)
            if n in goals or not is_name(n) or (p.endswith("Proof.antt") and (n.startswith(("invariant-", "decreases-")) or n.endswith(("-spec", "_spec")))):
                continue
            here.add(n)
            declared.setdefault(n, set()).add(p)
        if not p.endswith("Proof.antt"):
            for m in FIELD.finditer(t):
                if is_name(m.group(1)):
                    here.add(m.group(1))
                    fields.add(m.group(1))
                    declared.setdefault(m.group(1), set()).add(p)
        by_file[p] = here
    for p, t in texts.items():
        for here, (module, there) in imports(t).items():
            if here != there and is_name(here) and (is_own(module) or re.search(r"[a-z][A-Z]", here)):
                declared.setdefault(here, set()).add(p)
    tokens = {p: set(NAME.findall(t)) for p, t in texts.items()}
    everywhere = {}
    for p, s in tokens.items():
        for n in s:
            everywhere.setdefault(n, set()).add(p)
    new = {}
    for n in declared:
        m = snake(n)
        if m != n:
            new[n] = m

    def stands(m, ns):
        """The files in which both stand: a name of src/ or of a step beside a definition of that name is no clash, a variable is."""
        out = []
        for p in everywhere.get(m, ()):
            if not any(p in everywhere[n] for n in ns):
                continue
            t = texts[p]
            if p.endswith(".rt"):
                if re.search(r"(?:\blet (?:mut )?|[(,] *|^ +)" + m + r"\b(?: *[:=]|,)", t, re.M):
                    out.append(p)
            elif re.search(r"(?<![^\s({\[,;])" + re.escape(m) + r"(?![^\s(){}\[\],;.])", re.sub(r"(?m)^(?:pub )?use .*$", "", t)):
                out.append(p)
        return out

    # names that fall together: with one that stands, or with each other
    back = {}
    for n, m in sorted(new.items()):
        back.setdefault(m, []).append(n)
    clash = []
    for m, ns in sorted(back.items()):
        known = m in declared and m not in new
        others = [p for p in stands(m, ns) if not known]
        if len(ns) + known > 1 or others:
            clash.append((m, ns, known, others))
            # a definition takes the plain name, and a lemma, also one that has it, gives it up
            names = sorted([*ns, *([m] if known else [])], key=lambda n: (n == m or "-" in n, n != m, n))
            for i, n in enumerate(names):
                if i or others:
                    k = m + "_lem"
                    while k in everywhere or k in new.values():
                        k += "_lem"
                    new[n] = k
    for m, ns, known, others in clash:
        print("clash:", m, [(n, new[n]) for n in ns], "declared" if known else "", others)
    changed = 0
    for p, t in texts.items():
        lib = {here for here, (module, there) in imports(t).items() if not is_own(module) and here == there}
        goals = goals_of(p, t)
        mine = by_file.get(p, set())

        def turn(m):
            n = m.group(0)
            if n not in new or n in goals or (n not in fields and m.start() and m.string[m.start() - 1] == "."):
                return n
            if n in lib and n not in mine:
                print(f"look: {p}: {n} is a library's here")
                return n
            return new[n]

        lines = []
        for line in t.split("\n"):
            if p.endswith(".rt"):
                # clauses, ghost items and comments only: code has no dashes, and its camel case is types
                lines.append(NAME.sub(lambda m: turn(m) if ("-" in m.group(0) or re.match(r"[a-z]\w*[a-z][A-Z]", m.group(0))) else m.group(0), line))
            else:
                lines.append(NAME.sub(turn, line))
        u = "\n".join(lines)
        if u != t:
            changed += 1
            if not dry:
                open(p, "w", encoding="utf-8").write(u)
    # edits and papers: the same names
    for p in [*files("crates", (".edit",)), *files("docs", (".md",)), "README.md"]:
        t = open(p, encoding="utf-8").read()
        if p.endswith(".edit"):
            u = NAME.sub(lambda m: new.get(m.group(0), m.group(0)), t)
        else:
            u = re.sub(r"`([^`\n]+)`", lambda q: "`" + NAME.sub(lambda m: new.get(m.group(0), m.group(0)), q.group(1)) + "`", t)
        if u != t:
            changed += 1
            if not dry:
                open(p, "w", encoding="utf-8").write(u)
    print(len(new), "names,", changed, "files")


main()
