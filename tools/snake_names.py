#!/usr/bin/env python3
"""Respells this repository's own names in specs/, proofs/, clauses, edits and pages: words in snake case.

usage: snake_names.py [--check] FOLDER     FOLDER is a checkout that port.py has turned; with --check nothing is written

A name of specs/ and proofs/ such as listOver or next-mono becomes list_over or next_mono. Types, modules and what a library
gives keep their names; so do the names in a function's Proof.antt that Rattle makes. Where two names fall together in one
file, or a name meets one of the source that stands in the same file, a line 'meets:' says so, and OTHER below has the way out.
"""

import collections
import os
import re
import sys

NAME = r"[^\s(){}.;,@\"«»]+"
USE = re.compile(r"\buse ([^\s;{]+)(\{[^}]*\})?(?: as ([^\s;]+))?")
MARKS = r"(?:(?:pattern|unfoldable|abbrev|pub|axiom|record|data) )*"
SIGNATURE = re.compile(rf"(?m)^ *{MARKS}(\S+)(?: \{{[^{{}}\n]*\}})* :")
# Lemmas that port.py has spelled as definitions of ours are spelled from now on, where no name that Rattle makes is meant.
SPELLED = {"entry_in", "level_by", "rest_from", "by_one", "by_two", "labels_at", "ready_at", "sets_of", "both_ways"}
# Names that plain snake case would let meet another name: a lemma then ends in _lem.
OTHER = {"liveAs": "LiveAs"}  # a fact, so spelled as a type


def texts(root, *kinds):
    for folder, dirs, files in os.walk(root):
        dirs[:] = sorted(d for d in dirs if d not in ("out", ".git", "target"))
        for f in sorted(files):
            if f.endswith(kinds):
                yield os.path.join(folder, f)


def read(path):
    with open(path, encoding="utf-8") as f:
        return f.read()


def in_snake_case(name):
    if name in OTHER:
        return OTHER[name]
    name = re.sub(r"(?<=[a-z0-9])[A-Z]", lambda m: "_" + m[0].lower(), name)
    return name.replace("-", "_")


def is_old(name):
    return bool(re.match(r"[a-z]", name)) and bool(re.search(r"[a-z0-9][A-Z]|\w-\w", name))


def of_libraries(code, crates):
    """The names that a file has of libraries, each as it is spelled there."""
    names = set()
    for path, items, _ in USE.findall(code):
        steps = path.strip(".").split(".")
        if steps[0] == "Rattle" and len(steps) > 1 and steps[1] in crates:
            continue
        names.update(re.findall(NAME, items) if items else steps[-1:])
    return names


def quiet(text):
    return re.sub(r"--.*", "", text)


def declared(root, crates):
    """The names that specs/ and lemma files declare, at their heads, in records, or inside."""
    names = set()
    for p in texts(os.path.join(root, "crates"), ".antt"):
        if p.endswith("/Proof.antt"):
            continue
        code = quiet(read(p))
        from_libraries = of_libraries(code, crates)
        names.update(n for n in re.findall(NAME, code) if is_old(n) and n not in from_libraries)
    return names


def keep_apart(root, crates, names):
    """Fills OTHER: a lemma with a dash gives way to a definition, to a name that is in snake case already, and to a library's."""
    taken = {in_snake_case(n) for n in names if "-" not in n}
    for p in texts(os.path.join(root, "crates"), ".antt"):
        if not p.endswith("/Proof.antt"):
            taken |= {n for n in SIGNATURE.findall(quiet(read(p))) if "-" not in n and not is_old(n)}
    for p in texts(os.path.join(root, "crates"), ".antt"):
        code = quiet(read(p))
        from_libraries = of_libraries(code, crates)
        for n in set(re.findall(NAME, code)) & names:
            if "-" in n and (in_snake_case(n) in taken or in_snake_case(n) in from_libraries):
                OTHER[n] = in_snake_case(n) + "_lem"


def lemmas_apart(text):
    return re.sub(rf"(?<![^\s(){{}},;@]){NAME}", lambda m: m[0] + "_lem" if m[0] in SPELLED else m[0], text)


def turned(text, names, keep):
    def one(m):
        n = m[0]
        return in_snake_case(n) if n in names and n not in keep else n

    return re.sub(NAME, one, text)


RUST_ITEM = re.compile(r"\b(?:fn|const|static|struct|enum|mod) (\w+)")
CLAUSE_USE = re.compile(r"(?m)^ghost use [^;]*;")


def rust(text, names):
    """Only names that no Rust of ours has are in names, so every place is a clause, an import of one, or a comment."""
    camel = {n for n in names if "-" not in n}
    dashed = {n for n in names if "-" in n}
    text = re.sub(r"\b[a-z]\w*[A-Z]\w*\b", lambda m: in_snake_case(m[0]) if m[0] in camel else m[0], text)
    # A name with a dash stands in an import or behind a dot in a clause.
    return re.sub(r"(?<![\w-])[a-z][\w']*(?:-[\w']+)+(?![\w-])", lambda m: in_snake_case(m[0]) if m[0] in dashed else m[0], text) if dashed else text


def main(argv):
    check = "--check" in argv
    root = [a for a in argv if a != "--check"][0]
    crates = set(os.listdir(os.path.join(root, "crates")))
    names = declared(root, crates)
    keep_apart(root, crates, names)
    changed = 0
    for p in texts(root, ".antt", ".rt", ".edit", ".md", ".py", ".h", ".rs"):
        if not p.startswith(os.path.join(root, "crates")) and not p.endswith(".md"):
            continue
        old = read(p)
        if p.endswith(".antt"):
            code = quiet(old)
            keep = of_libraries(code, crates)
            if p.endswith("/Proof.antt"):
                keep |= set(SIGNATURE.findall(code)) | set(re.findall(rf"\btie\.({NAME})", code))
            new = turned(lemmas_apart(old), names, keep)
            seen = collections.defaultdict(set)
            for n in re.findall(NAME, quiet(lemmas_apart(old))):
                seen[in_snake_case(n) if n in names and n not in keep else n].add(n)
            for n, olds in sorted(seen.items()):
                if len(olds) > 1:
                    print(f"meets: {p}: {n}: {' '.join(sorted(olds))}")
        elif p.endswith(".rt"):
            new = rust(old, names)
            items = set(RUST_ITEM.findall(new)) | {n for u in re.findall(r"(?m)^use ([^;]*);", new) for n in re.findall(r"\w+", u)}
            ghosts = {n for u in CLAUSE_USE.findall(new) for n in re.findall(r"\{([^}]*)\}", u) for n in re.findall(NAME, n)}
            for n in sorted(items & ghosts):
                print(f"meets: {p}: {n} of the source")
        elif p.endswith(".edit"):
            new = "".join(turned(l, names, set()) if re.match(r"(old|new):", l) else l for l in old.splitlines(True))
        elif "/PORT" in p:
            continue
        else:
            new = re.sub(r"`[^`\n]*`", lambda m: turned(m[0][1:-1], names, set()).join("``"), old)
        if new != old:
            changed += 1
            if not check:
                with open(p, "w", encoding="utf-8") as f:
                    f.write(new)
    print(f"{len(names)} names, {changed} files")


if __name__ == "__main__":
    main(sys.argv[1:])
