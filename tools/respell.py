#!/usr/bin/env python3
"""Brings the repository's own names in specs and proofs to the spelling of today's Rattle.

usage: python3 tools/respell.py        at the top of the repository, once, right after the toolchain's own script

Words (functions, lemmas, fields, constructors) go to snake case, types and facts to upper camel case:
`step-bound` becomes `step_bound`, `Within-limits` becomes `WithinLimits`. Names that Rattle makes (goals, steps of a
proof, branches) keep their dashes. Names of src/, strings, comments, inputs and outputs stay as they are.
"""

import os
import re
import sys

WORD = r"[^\s(){}\[\];,.λ:→×«»]+"
DECLARES = re.compile(r"^(\s*)((?:(?:abbrev|unfoldable|pub|data|record|ruleset)\s+)*)(" + WORD + r"(?:\s+" + WORD + r")*)((?:\s+[({][^:]*:[^)}]*[)}])*) :(?=\s|$)")
RULESET = re.compile(r"^\s*(?:pub )?(?:ruleset|record|data) (" + WORD + ")")
GOAL = re.compile(r"^(?:abbrev )?(?:pub )?(\S+) : goal\.\1(?![\w'-])")
# names of variables, which no line declares
VARIABLES = ["good-fits", "good-says", "good-on", "zero-n", "run-turned"]
TOKEN = re.compile(r"[A-Za-z_][A-Za-z0-9_'ℕℤ]*(?:-[A-Za-z0-9_'ℕℤ]+)+")


def new_name(name):
    parts = name.split("-")
    if name[0].isupper():
        return "".join(p[:1].upper() + p[1:] for p in parts)
    return "_".join(parts)


def texts(ending):
    for root, folders, files in os.walk("crates"):
        folders[:] = sorted(f for f in folders if f != "out")
        for file in sorted(files):
            if file.endswith(ending):
                yield os.path.join(root, file)


def declared():
    """The dashed names that the repository declares, and those of them that are fields."""
    names, fields = set(VARIABLES), set()
    for path in texts(".antt"):
        with open(path, encoding="utf-8") as f:
            for line in f:
                if GOAL.match(line):
                    continue
                m = DECLARES.match(line)
                if not m:
                    m = RULESET.match(line)
                    if m and "-" in m.group(1):
                        names.add(m.group(1))
                    continue
                for name in m.group(3).split():
                    if TOKEN.fullmatch(name):
                        names.add(name)
                        if m.group(1):
                            fields.add(name)
    return names, fields


def made_names(text):
    """What a proof file brings in of the names that Rattle makes."""
    made = set()
    for m in re.finditer(r"^use \S*\.(?:Goals|Given)\.\{([^}]*)\}", text, re.M):
        made.update(n.strip() for n in m.group(1).split(","))
    for line in text.split("\n"):
        m = GOAL.match(line)
        if m:
            made.add(m.group(1))
    return made


def respell(text, names, fields, comment):
    made = made_names(text)

    def turn(m):
        name, before = m.group(0), m.string[: m.start()]
        if name not in names or name in made:
            return name
        if before.endswith("."):
            owner = re.search(r"([^\s(){}\[\];,]*)\.$", before).group(1)
            last = owner.split(".")[-1]
            if last == "goal" or (not (last[:1].isupper()) and name not in fields) or re.match(r"c$", owner):
                return name
        elif re.search(r"[A-Za-z0-9_'-]$", before):
            return name
        return new_name(name)

    out = []
    for line in text.split("\n"):
        at = line.find(comment)
        code, rest = (line, "") if at < 0 else (line[:at], line[at:])
        if re.match(r"^use \S*\.(?:Goals|Given)\b", code):
            out.append(line)
            continue
        out.append(TOKEN.sub(turn, code) + rest)
    return "\n".join(out)


def main():
    names, fields = declared()
    seen = {}
    for name in sorted(names):
        seen.setdefault(new_name(name), []).append(name)
    for new, olds in seen.items():
        if len(olds) > 1:
            sys.exit(f"respell: {', '.join(olds)} would all be {new}")
    for ending, comment in ((".antt", "--"), (".rt", "//")):
        for path in texts(ending):
            with open(path, encoding="utf-8") as f:
                old = f.read()
            new = respell(old, names, fields, comment)
            if new != old:
                with open(path, "w", encoding="utf-8") as f:
                    f.write(new)
    print(f"respell: {len(names)} names")


main()
