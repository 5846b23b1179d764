#!/usr/bin/env python3
"""Spells this repository's own definitions, lemmas, fields, constructors and parameters in one style: words in snake case, facts and types in upper camel case.

usage: python3 tools/spell_names.py            at the top of the repository: rewrites crates/, and prints names that fall together
       python3 tools/spell_names.py --map      prints the old and the new names, and writes nothing

Names of the library and names made by the checker stay. Comments and strings stay.
"""

import os
import re
import sys

DASHED = r"[A-Za-z][\w'′]*(?:[-][\w'′]+)+"
TOKEN = re.compile(r"(?<![\w'′-])(" + DASHED + r")(?![\w'′-])")
WORD = re.compile(r"(?<![\w'′-])([A-Za-z][\w'′]*)(?![\w'′-])")
RECORD = re.compile(r"(?:pub )?(?:record|data|ruleset) (" + DASHED + r")(?![\w'′-])")
DECLARED = re.compile(r"\s*(?:(?:abbrev|unfoldable|pub|record|ruleset|data)\s+)*((?:" + DASHED + r"\s+)*" + DASHED + r")\s*:\s+(.*)")
EQUATION = re.compile(r"[A-Za-z][\w'′-]*((?: [A-Za-z][\w'′-]*)+) = ")
BINDER = re.compile(r"[({]([^(){}:]*?):(?=\s)")
USE = re.compile(r"(?:ghost )?use ([^\s{;]+)\.\{([^}]*)\}")
OLD_WORDS = {"getD": "get_or"}


def files():
    for folder, dirs, names in os.walk("crates"):
        dirs[:] = sorted(d for d in dirs if d not in ("out", "must-fail"))
        for name in sorted(names):
            if name.endswith((".rt", ".antt")):
                yield os.path.join(folder, name)


def own_crates():
    return {c for c in os.listdir("crates") if os.path.isdir(os.path.join("crates", c))}


def spelled(name):
    parts = [OLD_WORDS.get(p, p) for p in name.split("-")]
    if parts[0][0].isupper():
        return "".join(p[:1].upper() + p[1:] for p in parts)
    return "_".join(parts)


def is_own_path(path, crates):
    m = re.match(r"Rattle\.(\w+)\.(specs|proofs)\b", path)
    return bool(m) and m.group(1) in crates and not path.endswith((".Goals", ".Given"))


def code_parts(text, path):
    """The text in pieces, each with whether it is code: comments and strings are not."""
    mark = "//" if path.endswith(".rt") else r"--(?=\s)"
    at = 0
    for m in re.finditer(r'(?m)"(?:[^"\\\n]|\\.)*"|' + mark + r".*$", text):
        yield text[at : m.start()], True
        yield m.group(0), False
        at = m.end()
    yield text[at:], True


def imported(text):
    """Names by the path that they are imported from."""
    found = {}
    for path, names in USE.findall(text):
        for n in names.split(","):
            n = n.strip()
            if n:
                found[n.split(" as ")[-1].strip()] = path
    return found


def collect(crates):
    own, fields = set(), set()
    for p in files():
        if not p.endswith(".antt"):
            continue
        with open(p, encoding="utf-8") as f:
            text = "".join(t for t, code in code_parts(f.read(), p) if code)
        made = p.split(os.sep)[2] == "proofs" and os.path.basename(p) in ("Answers.antt", "Invariants.antt")
        for line in text.split("\n"):
            if line.startswith("use "):
                continue
            m = RECORD.match(line)
            if m:
                own.add(m.group(1))
            m = DECLARED.match(line)
            if m:
                if made and (m.group(2).startswith("goal.") or re.match(r"(returns|loop|overflow|invariant|decreases)\b", m.group(1))):
                    continue
                for n in m.group(1).split():
                    own.add(n)
                    if line.startswith(" "):
                        fields.add(n)
            head = EQUATION.match(line)
            if head and not made:
                own.update(n for n in head.group(1).split() if re.fullmatch(DASHED, n))
            for b in BINDER.findall(line):
                own.update(n for n in b.split() if re.fullmatch(DASHED, n))
    return own, fields


def turn(text, path, own, fields, crates):
    from_outside = {n for n, p in imported(text).items() if not is_own_path(p, crates)}
    made_here = set(re.findall(r"(?m)^(?:abbrev )?pub (" + DASHED + r") : goal\.", text))
    before = {n for t, code in code_parts(text, path) if code for n in WORD.findall(t)}
    changed = {}

    def new(m):
        name = m.group(1)
        dotted = m.start() > 0 and m.string[m.start() - 1] == "."
        if name not in own or name in from_outside or name in made_here or (dotted and name not in fields):
            return name
        changed[name] = spelled(name)
        return changed[name]

    out = "".join(TOKEN.sub(new, t) if code else t for t, code in code_parts(text, path))
    meet = {}
    for a, b in changed.items():
        meet.setdefault(b, set()).add(a)
        if b in before:
            meet[b].add(b)
    return out, {b: s for b, s in meet.items() if len(s) > 1}


def main():
    crates = own_crates()
    own, fields = collect(crates)
    if "--map" in sys.argv:
        for n in sorted(own):
            print(n, spelled(n), "(field or local)" if n in fields else "")
        return
    for p in files():
        with open(p, encoding="utf-8") as f:
            text = f.read()
        out, meet = turn(text, p, own, fields, crates)
        for b, s in sorted(meet.items()):
            print(f"{p}: {b}: {', '.join(sorted(s))}")
        if out != text:
            with open(p, "w", encoding="utf-8") as f:
                f.write(out)


if __name__ == "__main__":
    main()
