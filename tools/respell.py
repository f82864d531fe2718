#!/usr/bin/env python3
"""Respells the names of definitions and lemmas, once, after a change of the language's spelling.

usage: python3 tools/respell.py          at the top of the repository
       python3 tools/respell.py --list   prints the old and the new names and changes nothing

Types are written in upper camel case (`Keeps-mosts` becomes `KeepsMosts`), all other names in snake case (`verdict-of`
becomes `verdict_of`). A lemma that begins with the name of a type keeps that name and its dash (`Keeps-mosts-nil` would
become `KeepsMosts-nil`).
Only names that a file of specs/ or proofs/ defines are respelled. Names of the libraries, names that the prover makes, and
everything in strings stay.
"""

import re
import sys
from pathlib import Path

NAME = r"[^\W\d_][\w'≢≡≤≥∷]*(?:-[\w'≢≡≤≥∷]+)*"
TOKEN = re.compile(r"(?<![\w'\-≢≡≤≥∷])" + NAME)
DEFINED = re.compile(r"^(\s*)(?:pub |abbrev |unfoldable |opaque )*(?:(record|data) )?(" + NAME + r")(?:\s+[({][^:]*?[)}])*\s*:\s(.*)$")
LATE = re.compile(r"^(\s*)(?:pub |abbrev |unfoldable )*(record|data) (" + NAME + r")\b")
STRING = re.compile(r'"(?:[^"\\]|\\.)*"')


def antt_files(root):
    for part in ("specs", "proofs"):
        yield from sorted(root.glob(f"crates/*/{part}/**/*.antt"))


def is_lemma_file(path):
    return path.name not in ("Answers.antt", "Invariants.antt")


def definitions(root):
    """Each dashed name that the repository defines, with whether it is a type somewhere."""
    found = {}
    for path in antt_files(root):
        text = path.read_text(encoding="utf-8")
        answers = not is_lemma_file(path)
        lines = text.split("\n")
        for at, line in enumerate(lines):
            m = DEFINED.match(line) or LATE.match(line)
            if not m:
                continue
            name = m.group(3)
            if answers and re.search(r":\s*(goal|given)\.", line):
                continue
            if "-" not in name:
                continue
            kind = bool(m.group(2)) or (name[0].isupper() and re.search(r"\bType 0\s*$", signature(lines, at)) is not None)
            found[name] = found.get(name, False) or kind
    for path in list(antt_files(root)) + sorted(root.glob("crates/*/src/**/*.rt")):
        for m in re.finditer(r"^\s*(?:pub )?(?:ghost )?use [^\n]*", path.read_text(encoding="utf-8"), re.M):
            for name in re.findall(r" as (" + NAME + r")", m.group(0)):
                if "-" in name:
                    found[name] = found.get(name, False) or name[0].isupper()
    return found


def signature(lines, at):
    """The signature that begins at a line: it and the lines below that are indented deeper."""
    depth = len(lines[at]) - len(lines[at].lstrip())
    parts = [lines[at].strip()]
    for line in lines[at + 1:]:
        if not line.strip() or len(line) - len(line.lstrip()) <= depth:
            break
        parts.append(line.strip())
    return " ".join(parts)


def library_names(root):
    """Names that some file takes from a library of the kit."""
    taken = set()
    own = {p.name for p in (root / "crates").iterdir()}
    for path in list(antt_files(root)) + sorted(root.glob("crates/*/src/**/*.rt")):
        for m in re.finditer(r"^\s*(?:pub )?(?:ghost )?use ([\w.◌+*'-]+?)\.\{([^}]*)\}", path.read_text(encoding="utf-8"), re.M):
            head = m.group(1).split(".")
            if head[0] == "Rattle" and len(head) > 1 and head[1] in own:
                continue
            taken |= {x.strip() for x in m.group(2).split(",")}
    return taken


def respelled(name, is_type, types):
    if is_type:
        return "".join(p[:1].upper() + p[1:] for p in name.split("-"))
    if name[0].isupper():
        parts = name.split("-")
        for n in range(len(parts), 0, -1):
            front = "-".join(parts[:n])
            if front in types:
                rest = "_".join(parts[n:])
                return respelled(front, True, types) + ("-" + rest if rest else "")
        name = name[0].lower() + name[1:]
    return name.replace("-", "_")


def names(root):
    found = definitions(root)
    taken = library_names(root)
    types = {n for n, t in found.items() if t}
    return {n: respelled(n, t, types) for n, t in found.items() if n not in taken}, found, taken


def turn(text, new, quiet=None):
    def one(m):
        return new.get(m.group(0), m.group(0))

    out, last = [], 0
    for s in (quiet.finditer(text) if quiet else ()):
        out.append(TOKEN.sub(one, text[last:s.start()]))
        out.append(s.group(0))
        last = s.end()
    out.append(TOKEN.sub(one, text[last:]))
    return "".join(out)


def main():
    root = Path.cwd()
    new, found, taken = names(root)
    if "--list" in sys.argv:
        for old in sorted(new):
            print(f"{old}\t{new[old]}\t{'type' if found[old] else ''}")
        for old in sorted(set(found) & taken):
            print(f"# {old} is a library's name too")
        return
    for path in list(antt_files(root)) + sorted(root.glob("crates/*/src/**/*.rt")):
        text = path.read_text(encoding="utf-8")
        turned = turn(text, new, STRING if path.suffix == ".rt" else None)
        if turned != text:
            path.write_text(turned, encoding="utf-8")


if __name__ == "__main__":
    main()
