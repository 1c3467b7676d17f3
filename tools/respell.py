#!/usr/bin/env python3
"""Brings the repository's own definitions, lemmas, fields and constructors to one spelling: words in snake case.

usage: python3 tools/respell.py [--list]      at the top of the repository, once, right after port.py

A name is the repository's own where a file of specs/ or proofs/ declares it. Names that the checker makes (goals, steps, fields of a goal's record) and
names of libraries keep their spelling, and so do types and modules, which are in camel case. Strings, inputs and outputs are not touched. A file that
imports a library's name of the same spelling keeps that one. With --list it only prints the table.
"""
import os
import re
import sys

CHARS = r"[\w'\-+∷≡]"
SIGNATURE = re.compile(r"^(\s*)((?:abbrev |pub |unfoldable )*)([^\s(){}:]+) : (.*)$")
USE = re.compile(r"^\s*(?:pub )?(?:ghost )?use ([\w.'\-]+)\.\{([^}]*)\}")


def files(top):
    for folder, dirs, names in os.walk(os.path.join(top, "crates")):
        dirs[:] = sorted(d for d in dirs if d != "out")
        for n in sorted(names):
            if n.endswith((".antt", ".rt", ".edit")):
                yield os.path.join(folder, n)


def snake(name):
    if name[0].isupper():
        return name
    s = re.sub(r"(?<=[a-z0-9])([A-Z])", lambda m: "_" + m.group(1).lower(), name)
    s = s.replace("get_d", "get_or").replace("-++", "_append").replace("-", "_")
    return s.lower() if re.search("[A-Z]", s) else s


def own_names(top):
    """The names that the repository declares, and those of them that are fields or stand in a module of a file."""
    found, inner = set(), set()
    for p in files(top):
        if not p.endswith(".antt"):
            continue
        for line in open(p, encoding="utf-8"):
            m = SIGNATURE.match(line.split("-- ")[0].rstrip("\n"))
            if not m or m.group(3) in ("let", "in", "|"):
                continue
            if re.match(r"goal\b", m.group(4)) or "." in m.group(3):
                continue
            found.add(m.group(3))
            if m.group(1):
                inner.add(m.group(3))
    return found, inner


def renamed(found):
    """The new spelling of each name that gets one. Where a lemma and a definition would fall together, the lemma's name ends in `_so`."""
    table = {n: snake(n) for n in found if snake(n) != n}
    groups = {}
    for n in found:
        groups.setdefault(snake(n), set()).add(n)
    for new, olds in groups.items():
        camel = {n for n in olds if re.search("[a-z][A-Z]", n)}
        if len(olds) > 1:
            for n in olds - (camel or {new}):
                table[n] = new + "_so"
                assert new + "_so" not in groups, new
    return table


def library_names(text, crates):
    """The names that a file takes from libraries or from what the checker makes."""
    names = set()
    for line in text.splitlines():
        m = USE.match(line)
        if not m:
            continue
        path = m.group(1)
        ours = re.match(r"Rattle\.(\w+)\.", path)
        made = re.search(r"\.(Goals|Given)$|\.declared\.", path)
        if made or not (ours and ours.group(1) in crates):
            for n in m.group(2).split(","):
                names.add(n.split(" as ")[-1].strip())
    names.update(re.findall(r"(?m)^(?:abbrev |pub )*(\S+) : goal\b", text))
    return names


def respelled(text, table, inner, keep, comments):
    """The text with the names of the table in their new spelling."""
    out = []
    word = re.compile(r"(?<!" + CHARS + r")(\.?)([A-Za-z][\w'\-+]*)")
    for line in text.split("\n"):
        code, mark, comment = line, "", ""
        at = line.find(comments)
        if at >= 0 and (at == 0 or line[at - 1] in " \t"):
            code, mark, comment = line[:at], comments, line[at + len(comments):]

        def one(m):
            dot, name = m.group(1), m.group(2)
            if name not in table or name in keep or (dot and name not in inner):
                return m.group(0)
            return dot + table[name]

        parts = re.split(r'("(?:[^"\\]|\\.)*")', code)
        code = "".join(s if s.startswith('"') else word.sub(one, s) for s in parts)
        told = {n: t for n, t in table.items() if "-" not in n or n in inner}
        comment = re.sub(r"(?<![\w-])([a-z][\w-]*)(?![\w-])", lambda m: told.get(m.group(1), m.group(1)), comment)
        out.append(code + mark + comment)
    return "\n".join(out)


def main(argv):
    top = os.getcwd()
    crates = set(os.listdir(os.path.join(top, "crates")))
    found, inner = own_names(top)
    table = renamed(found)
    if "--list" in argv:
        for n in sorted(table):
            print(n, "->", table[n])
        return 0
    for p in files(top):
        text = open(p, encoding="utf-8").read()
        keep = library_names(text, crates)
        if not p.endswith(".antt"):
            keep |= {n for n in table if not re.search("[a-z][A-Z]", n)}
        new = respelled(text, table, inner, keep, "//" if p.endswith((".rt", ".edit")) else "--")
        if new != text:
            open(p, "w", encoding="utf-8").write(new)
    for folder in (top, os.path.join(top, "docs")):
        for n in sorted(os.listdir(folder)):
            if n.endswith(".md"):
                p = os.path.join(folder, n)
                text = open(p, encoding="utf-8").read()
                new = re.sub(r"`[^`\n]*`", lambda m: re.sub(r"(?<![\w'\-])([a-z][\w'\-]*)", lambda w: table.get(w.group(1), w.group(1)), m.group(0)), text)
                if new != text:
                    open(p, "w", encoding="utf-8").write(new)
    print(len(table), "names")
    return 0


if __name__ == "__main__":
    raise SystemExit(main(sys.argv[1:]))
