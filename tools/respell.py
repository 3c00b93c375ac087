#!/usr/bin/env python3
"""Turns the repository's own names to today's spelling, after port.py: run it once, at the top of the checkout.

Definitions, lemmas, fields and constructors are in snake case (`table-grounds` is `table_grounds`), and what answers a type
is in upper camel case (`demand-3` is `Demand3`). Names of the library and of Rattle keep their dashes, and so do functions
of src/, strings, inputs and outputs. With --pages it turns the names that README.md and docs/ write in backticks.
It prints each name that falls together with another, and then changes nothing.
"""

import glob
import os
import re
import sys

LIBRARY = ("std", "core", "std_alloc", "io", "os", "libc")
NAME = r"[A-Za-z0-9_'ℕ]+(?:-[A-Za-z0-9_'ℕ*+]+)*"
# a name, and not a part of a longer one
# words of tactics, which no definition may use as a variable
WORDS = {"ground": "g"}
TOKEN = re.compile(r"(?<![\w'·◌-])(" + NAME + r")(?![\w'·◌-])")
USE = re.compile(r"^((?:pub |ghost )*use ([\w.+'-]+)\.\{)([^}]*)(\})", re.M)
TYPE = re.compile(r"^[ \t]*(?:pub\s+)?(?:record|data)\s+(" + NAME + r")", re.M)
HEAD = re.compile(r"^([ \t]*)((?:(?:pub|abbrev|unfoldable|pattern|axiom)\s+)*)(record\s+|data\s+)?(" + NAME + r")\s*(?:\([^)]*\)\s*|\{[^}]*\}\s*)*:(?!:)", re.M)


def read(path):
    with open(path, encoding="utf-8") as f:
        return f.read()


def files(*patterns):
    return sorted(f for p in patterns for f in glob.glob(p, recursive=True) if "/out/" not in f)


def plain(text):
    """The text without comments."""
    return re.sub(r"--.*", "", text)


def is_walk(path):
    """A proof of one function, whose local names Rattle makes."""
    return "/proofs/" in path and path.split("/proofs/")[1].count("/") > 0


def signature(text, at):
    """The signature from a place on, with the lines that go on with it."""
    lines = text[at:].split("\n")
    found = [lines[0]]
    deep = len(lines[0]) - len(lines[0].lstrip())
    for line in lines[1:]:
        if not line.strip() or len(line) - len(line.lstrip()) <= deep:
            break
        found.append(line)
    return " ".join(found)


def camel(name):
    return "".join(w[:1].upper() + w[1:] for w in re.split(r"[-_]", name))


def names():
    """Each own name, and its new spelling."""
    own, library, types = set(), set(), set()
    for path in files("crates/*/specs/**/*.antt", "crates/*/proofs/**/*.antt"):
        text = plain(read(path))
        for use in USE.finditer(text):
            part = use.group(2).split(".")
            if part[0] != "Rattle" or part[1] in LIBRARY:
                library |= {n.strip().split(" as ")[0] for n in use.group(3).split(",")}
        if is_walk(path):
            continue
        own |= set(TYPE.findall(text))
        for head in HEAD.finditer(text):
            name = head.group(4)
            own.add(name)
            if not head.group(3) and not head.group(1) and name[0].islower() and re.search(r"\bType( \S+)?\s*$", signature(text, head.start()).split(" where")[0]):
                types.add(name)
        # names that a `let`, a `λ` or a binder makes
        own |= {n for n in re.findall(NAME, text) if "-" in n and n not in library and not re.match(r"\d", n)}
    own -= library
    new = {}
    for name in own:
        if name in types:
            # a statement beside the relation that it is of
            new[name] = camel(name) + ("Always" if camel(name) in own else "")
        elif "-" in name:
            new[name] = name.replace("-", "_")
    return own, library, WORDS | {a: b for a, b in new.items() if a != b}


def clashes(own, library, new):
    by = {}
    for name in own | library:
        by.setdefault(new.get(name, name), set()).add(name)
    return {k: v for k, v in by.items() if len(v) > 1}


def respell(text, new, allowed=None):
    def one(m):
        n = m.group(1)
        return new[n] if n in new and (allowed is None or n in allowed) else n

    return TOKEN.sub(one, text)


def main(argv):
    if argv == ["--pages"]:
        table = dict(line.rstrip("\n").split("\t") for line in open("tools/respelled.tsv", encoding="utf-8"))
        for path in files("README.md", "docs/**/*.md"):
            text = read(path)
            turned = re.sub(r"`([^`\n]+)`", lambda m: "`" + respell(m.group(1), table) + "`", text)
            if turned != text:
                with open(path, "w", encoding="utf-8") as f:
                    f.write(turned)
        return 0
    own, library, new = names()
    bad = clashes(own, library, new)
    if bad:
        for name, both in sorted(bad.items()):
            print(f"respell: {name}: {', '.join(sorted(both))} would fall together")
        return 1
    count = 0
    for path in files("crates/*/specs/**/*.antt", "crates/*/proofs/**/*.antt", "crates/*/src/**/*.rt"):
        text = read(path)
        if path.endswith(".rt"):
            # clauses, ghost items and imports alone
            turned = re.sub(r"^(\s*(?:requires|ensures|ghost)\b.*)$", lambda m: respell(m.group(1), new), text, flags=re.M)
            inside = False
            lines = []
            for line in turned.split("\n"):
                if re.match(r"\s*(requires|ensures|ghost)\b", line):
                    inside = True
                if inside:
                    line = respell(line, new)
                    if line.count("{") <= line.count("}") and line.rstrip().endswith(("}", "};", "},", ";")):
                        inside = False
                lines.append(line)
            turned = "\n".join(lines)
        elif is_walk(path):
            # only what the file imports from the repository, and its record fields
            allowed = set()
            for use in USE.finditer(text):
                part = use.group(2).split(".")
                if part[0] == "Rattle" and part[1] not in LIBRARY:
                    allowed |= {n.strip() for n in use.group(3).split(",")}
            turned = respell(text, new, allowed)
        else:
            turned = "\n".join(respell(code, new) + mark + comment for code, mark, comment in (line.partition("--") for line in text.split("\n")))
        if turned != text:
            count += 1
            with open(path, "w", encoding="utf-8") as f:
                f.write(turned)
    os.makedirs("tools", exist_ok=True)
    with open("tools/respelled.tsv", "w", encoding="utf-8") as f:
        f.writelines(f"{a}\t{b}\n" for a, b in sorted(new.items()))
    print(f"respell: {len(new)} names in {count} files")
    return 0


if __name__ == "__main__":
    raise SystemExit(main(sys.argv[1:]))
