#!/usr/bin/env python3
"""Brings the repository's own definitions and lemmas to today's spelling: words in snake case, once, after the kit's port.py.

    python3 tools/respell.py          says what would be renamed
    python3 tools/respell.py --write  renames it

A name is turned if a file of specs/ or proofs/ declares it (a definition, a lemma, a record's field) and it is written with capitals inside or with
dashes. Names that stand for what the check makes (their type is `tie.X`) are left, and so are functions, types, texts in quotes, inputs and outputs.
"""
import collections
import pathlib
import re
import sys

root = pathlib.Path(__file__).resolve().parent.parent
# names of a token: all but blanks, brackets, commas, dots and quotes
token = re.compile(r"[^\s(){}\[\],;.\"@`|:]+")
# where two would fall together, or with another word: chosen by hand
CHOSEN = {}
CHOSEN_FILE = root / "tools/respell.txt"
if CHOSEN_FILE.exists():
    for line in CHOSEN_FILE.read_text().splitlines():
        if line and not line.startswith("#"):
            old, new = line.split()
            CHOSEN[old] = new


def snake(name):
    name = name.replace("getD", "get_or").replace("-", "_")
    name = re.sub(r"(?<=[a-z0-9])(?=[A-Z])", "_", name)
    return name.lower()


def antt_files():
    return sorted(list(root.glob("crates/*/specs/**/*.antt")) + list(root.glob("crates/*/proofs/**/*.antt")))


def declared():
    """name -> its types; a record's fields are in the second."""
    found = collections.defaultdict(set)
    fields = set()
    for file in antt_files():
        inside = False
        for line in file.read_text().splitlines():
            if line.startswith(("use ", "--", "mod ", "pub mod ")):
                continue
            if not line.startswith(" "):
                head = re.match(r"^((?:abbrev |unfoldable |opaque |pub )*)(data |record )?(\S+)( .*)?$", line)
                inside = bool(head and head.group(2))
                top = re.match(r"^(?:abbrev |unfoldable |opaque |pub )*(?:data |record )?(\S+) :(?: (.*))?$", line)
                if top:
                    found[top.group(1)].add(top.group(2) or "")
            elif inside:
                field = re.match(r"^\s+(?:pub )?([^\s({]+) : (.*)$", line)
                if field:
                    found[field.group(1)].add(field.group(2))
                    fields.add(field.group(1))
            else:
                # a lemma inside a module
                lemma = re.match(r"^ {2,4}(?:abbrev |unfoldable |opaque |pub )*([^\s({]+) :(?: (.*))?$", line)
                if lemma and lemma.group(1) not in ("let", "in"):
                    found[lemma.group(1)].add(lemma.group(2) or "")
    return found, fields


def of_the_library(text):
    """The names that a file takes from the library, which keep their spelling there."""
    names = set()
    for m in re.finditer(r"^(?:ghost )?use ([^\s{]+)\.\{([^}]*)\}", text, re.M):
        if not m.group(1).startswith("Rattle.") or m.group(1).startswith("Rattle.std"):
            names |= {w for part in m.group(2).split(",") for w in part.split()}
    return names


def wanted(name, types):
    if all(t.startswith("tie.") for t in types):
        return False
    if not name[0].islower() and name not in CHOSEN:
        return False
    return name in CHOSEN or bool(re.search(r"[a-z0-9][A-Z]", name)) or "-" in name.strip("-")


def split_comment(line, mark):
    at = line.find(mark)
    return (line, "") if at < 0 else (line[:at], line[at:])


def turn(text, names, mark, quoted, fields=None):
    library = of_the_library(text)
    names = {old: new for old, new in names.items() if old not in library}
    out = []

    def word(m):
        name = m.group(0)
        # in a function's proof a name after a dot is what the check makes, unless it is a field of ours
        if fields is not None and name not in fields and m.start() and m.string[m.start() - 1] == ".":
            return name
        return names.get(name, name)

    for line in text.split("\n"):
        code, comment = split_comment(line, mark) if mark else (line, "")
        parts = re.split(r'("(?:[^"\\]|\\.)*")', code) if quoted else [code]
        parts = [p if quoted and p.startswith('"') else token.sub(word, p) for p in parts]
        comment = token.sub(lambda m: names[m.group(0)] if m.group(0) in names and re.search("[a-z0-9][A-Z]", m.group(0)) else m.group(0), comment)
        out.append("".join(parts) + comment)
    return "\n".join(out)


def main():
    write = "--write" in sys.argv
    found, fields = declared()
    names = CHOSEN | {n: CHOSEN.get(n, snake(n)) for n, types in found.items() if wanted(n, types)}
    bad = 0
    sources = collections.defaultdict(list)
    for old, new in names.items():
        sources[new].append(old)
    for new, olds in sorted(sources.items()):
        if len(olds) > 1 or (new in found and new not in olds):
            bad += 1
            print(f"falls together: {' '.join(olds)} -> {new}{' (declared)' if new in found else ''}")
    # in one file: the new word, already there with another meaning. A function of src/ may have a word's name; a parameter may not.
    for file in antt_files() + sorted(root.glob("crates/*/src/**/*.rt")):
        source = file.suffix == ".rt"
        here = set()
        for line in file.read_text().splitlines():
            code = split_comment(line, "//" if source else "--")[0]
            if source and line.startswith("ghost use"):
                here |= {w for w in token.findall(code) if w in names}
            elif source:
                here |= {m + ":" for m in re.findall(r"\b(\w+):", code)}
            else:
                here |= set(token.findall(code))
        for old in here & set(names):
            if names[old] + (":" if source else "") in here:
                bad += 1
                print(f"taken: {old} -> {names[old]} in {file.relative_to(root)}")
    print(f"{len(names)} names, {bad} that fall together")
    if not write:
        return
    if "isDown" not in found:
        sys.exit("it has run here already: nothing is written, since a second run would take today's words for the older ones")
    for file in antt_files():
        file.write_text(turn(file.read_text(), names, "--", False, fields if file.name == "Proof.antt" else None))
    for file in sorted(root.glob("crates/*/src/**/*.rt")):
        file.write_text(turn(file.read_text(), names, "//", True))
    for file in sorted(root.glob("crates/*/must-fail/*.edit")):
        # the first line says what is wrong; the others are code
        file.write_text("\n".join(turn(line, names, "", True) if re.match(r"(old|new): ?", line) else line for line in file.read_text().split("\n")))


main()
