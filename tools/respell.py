#!/usr/bin/env python3
"""Brings the names that this repository defines in specs/ and proofs/ to one spelling.

usage: python3 tools/respell.py [FOLDER]     rewrites the files below FOLDER/crates in place, and says what it renamed

Facts (types) are in camel case, every other definition in snake case. In a lemma's name a dash stays where it joins the
names of two definitions, as in `take-append`; anywhere else it becomes an underscore. Names of Rust, strings and
comments are left alone, and so are the names that the check makes of goals and steps.
"""

import os
import re
import sys
from collections import defaultdict

DEFINES = re.compile(
    r"^\s*(?P<words>(?:(?:pub|abbrev|unfoldable|record|data|let) )*)(?P<name>[^\s(){}\[\];,.:\"`]+)"
    r"(?P<more>(?: [^\s(){}\[\];,.:=|]+| \{[^}]*\}| \([^)]*\))*) ?: (?P<type>.*)$"
)
TOKEN = re.compile(r"[^\s(){}\[\];,.:\"`«»⌜⌝]+")
# a name that a crate gives to something else than the others do, and keeps
KEPT = {"calls": {"finds"}}
# words of the library that names of lemmas are made of
LIBRARY = {"length", "map", "append", "take", "drop", "set", "replicate", "reverse", "get", "sum", "filter", "cond", "not", "min", "max", "cons"}


def texts(root, endings):
    for folder, dirs, files in os.walk(os.path.join(root, "crates")):
        dirs[:] = sorted(d for d in dirs if d != "out")
        for f in sorted(files):
            if f.endswith(endings):
                yield os.path.join(folder, f)


def lines(path):
    with open(path, encoding="utf-8") as f:
        return f.read().split("\n")


def is_comment(line):
    return line.lstrip().startswith(("--", "//"))


def defined(root):
    """The names that files of specs/ and proofs/ define: a name leads to (is it of specs/, is it a fact)."""
    found = {}
    for path in texts(root, (".antt",)):
        in_specs = "/specs/" in path
        for line in lines(path):
            m = None if is_comment(line) else DEFINES.match(line)
            if m is None or re.match(r"(goal|need)\.", m["type"]) or m["type"].startswith(("goal.", "need.")):
                continue
            fact = m["type"].rstrip().endswith(("Type 0", "Type 0 where", "Type 1")) or m["name"][0].isupper()
            was = found.get(m["name"], (False, False))
            found[m["name"]] = (was[0] or in_specs, was[1] or fact)
    return found


def camel(name):
    return "".join(part[0].upper() + part[1:] for part in re.split(r"[-_]", name) if part)


def lemma(name, known):
    """Dashes stay between two names of definitions; a run of parts that is one definition's name counts as one."""
    parts, runs, at = name.split("-"), [], 0
    while at < len(parts):
        for end in range(len(parts), at, -1):
            run = "_".join(parts[at:end])
            if run in known or end == at + 1:
                runs.append((run, run in known))
                at = end
                break
    out = runs[0][0]
    for (_, known_before), (run, known_here) in zip(runs, runs[1:]):
        out += ("-" if known_before and known_here else "_") + run
    return out


def renamed(root):
    found = defined(root)
    plain = {n.replace("-", "_") for n, (specs, _) in found.items() if specs} | LIBRARY
    new = {}
    for name, (specs, fact) in sorted(found.items()):
        turned = name.replace("getD", "get_or")
        if fact:
            new[name] = camel(turned)
        elif re.search(r"\w-\w", turned):
            new[name] = turned.replace("-", "_") if specs else lemma(turned, plain)
    return {a: b for a, b in new.items() if a != b}


def collisions(root, new):
    """Names that would fall together with another name of one file's."""
    said = []
    used = defaultdict(set)
    for path in texts(root, (".antt", ".rt")):
        for line in lines(path):
            if not is_comment(line):
                for t in TOKEN.findall(line):
                    used[t].add(path)
    for a, b in new.items():
        both = sorted(used[a] & used[b])
        if both:
            said.append(f"together: {a} becomes {b}, which stands too in {', '.join(os.path.relpath(p, root) for p in both[:4])}")
    back = defaultdict(list)
    for a, b in new.items():
        back[b].append(a)
    said += [f"together: {' and '.join(v)} become {k}" for k, v in back.items() if len(v) > 1]
    return said


def turn(line, new):
    return TOKEN.sub(lambda m: new.get(m[0], m[0]), line)


def main(argv):
    root = os.path.abspath(argv[0] if argv else ".")
    new = renamed(root)
    said = collisions(root, new)
    print("\n".join(said))
    for path in texts(root, (".antt", ".rt")):
        old = lines(path)
        kept = KEPT.get(os.path.relpath(path, os.path.join(root, "crates")).split(os.sep)[0], set())
        here = {a: b for a, b in new.items() if a not in kept}
        if path.endswith(".antt"):
            out = [l if is_comment(l) else turn(l, here) for l in old]
        else:
            # of a source file only what is ghost: imports, clauses, ghost members
            out = [turn(l, here) if re.match(r"\s*(pub )?(ghost|requires|ensures)\b", l) else l for l in old]
        if out != old:
            with open(path, "w", encoding="utf-8") as f:
                f.write("\n".join(out))
    print("\n".join(f"{a} -> {b}" for a, b in sorted(new.items())))


if __name__ == "__main__":
    main(sys.argv[1:])
