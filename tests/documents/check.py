#!/usr/bin/env python3
"""Every name that a document puts between backticks is there: a crate, a file, an edit, or a word of the sources.

Fails, naming document, line and name. A row that names a theorem, a definition, an edit or a file that is gone, or an edit or a file
of a crate that another crate has, is found here; that the named thing says what the row says is for the reader. Fails too where docs/TRUST.md counts a crate's lines of definition
otherwise than they are, or has no row for a crate of rules. That a name and a path that are gone are found is tried first.
"""
import os
import pathlib
import re
import sys

ROOT = pathlib.Path(__file__).resolve().parents[2]
DOCUMENTS = ["README.md"] + [f"docs/{name}.md" for name in ("ARCHITECTURE", "CONTRACTS", "DECISIONS", "DEMANDS", "TRUST", "BENCH")]
WORD = re.compile(r"[^\W_][\w'-]*(?:-[\w']+)*|_[\w]+")
SOURCES = {".antt", ".rt", ".c", ".h", ".cpp", ".py", ".sh", ".edit", ".txt", ""}


def tracked():
    """Every file of the tree but the documents, what is built, and the list of names that were turned into others."""
    for at, folders, files in os.walk(ROOT):
        parts = pathlib.Path(at).relative_to(ROOT).parts
        folders[:] = [f for f in folders if not (f in ("target", ".git", "docs") and not parts or f == "out" and parts[:1] == ("crates",) or f == "__pycache__")]
        for name in files:
            if name not in ("README.md", "respell.txt"):
                yield pathlib.Path(at, name)


def words():
    """Every word of a source, and every name of a file or folder."""
    known = set()
    for path in tracked():
        for part in path.relative_to(ROOT).parts:
            known.update((part, part.split(".")[0]))
        if path.suffix in SOURCES:
            known.update(WORD.findall(path.read_text(encoding="utf-8", errors="ignore")))
    return known


def spans(text):
    """(line number, span) of each span between backticks, outside of blocks of code."""
    fenced = False
    for number, line in enumerate(text.split("\n"), 1):
        if line.lstrip().startswith("```"):
            fenced = not fenced
        elif not fenced and not line.startswith("    "):
            for span in re.findall(r"`([^`]+)`", line):
                yield number, span


def missing(span, known):
    """The words of a span that are nowhere. `..` stands for any beginning or end of a word, `*` likewise."""
    for token in re.split(r"[\s(),;{}\[\]/:.·≡∷→|&<>=+*\"@$]+", span):
        token = token.strip("-'")
        if not token or re.fullmatch(r"[\W\d]*|0x[0-9A-Fa-f]+|[NCFeXn]|NAME|PREFIX|X_rules|_rules", token):
            continue
        if token not in known and not (".." in span or "*" in span):
            yield token


def astray(span):
    """Whether a span names a file of the tree that is not there, or, by its crate, an edit or a file of specs/ or proofs/ that this crate does not have."""
    if re.fullmatch(r"(docs|tests|tools|bench|include|examples|\.ci)/[\w/.-]+", span):
        return "NAME" not in span and not (ROOT / span).exists()
    path = pathlib.Path(span.removeprefix("crates/"))
    crate = ROOT / "crates" / path.parts[0] if path.parts else ROOT
    if not re.fullmatch(r"[\w/.-]+", span) or len(path.parts) < 2 or not crate.is_dir():
        return False
    there = crate.joinpath(*path.parts[1:])
    edit = crate / "must-fail" / f"{path.parts[-1]}.edit"
    return not (there.exists() or there.with_suffix(".antt").exists() or there.with_suffix(".edit").exists() or (len(path.parts) == 2 and edit.exists()))


def definitions(crate):
    """Lines of definition of a crate: those of specs/ without comments, imports and lists of modules."""
    lines = [line.strip() for path in (crate / "specs").rglob("*.antt") for line in path.read_text(encoding="utf-8").split("\n")]
    return sum(1 for line in lines if line and not line.startswith(("--", "use ", "pub mod ")))


def counted():
    """Faults of the table in docs/TRUST.md."""
    said = dict(re.findall(r"^\| `(\w+)` \| (\d+) \|", (ROOT / "docs" / "TRUST.md").read_text(encoding="utf-8"), re.M))
    for crate in sorted((ROOT / "crates").iterdir()):
        lines = definitions(crate)
        if crate.name in said and int(said[crate.name]) != lines:
            yield f"docs/TRUST.md: {crate.name} has {lines} lines of definition and not {said[crate.name]}"
        if crate.name.endswith("_rules") and crate.name not in said:
            yield f"docs/TRUST.md: no row for {crate.name}, {lines} lines"


def self_test(known):
    """what is there is not told, and what is gone is"""
    there = ["crates/symbol/specs/Symbols", "symbol/proofs/Twelve.antt", "crates/symbol/must-fail/com_is_k28_1", "symbol/com_is_k28_1", "docs/TRUST.md", "crates/C/must-fail/e.edit"]
    gone = ["crates/symbol/specs/Nowhere", "symbol/proofs/Disparities", "crates/symbol/must-fail/packs_52429_characters", "docs/NOWHERE.md", "crates/symbol/proofs/is_twelve/Nowhere.antt"]
    assert not any(astray(span) for span in there) and all(astray(span) for span in gone)
    assert not list(missing("twelve", known)) and all(list(missing(f"{a}{b}", known)) for a, b in (("no", "-such-name"), ("no", "_such_name"), ("No", "SuchName")))


def main():
    known, faults = words(), list(counted())
    self_test(known)
    for name in DOCUMENTS:
        for number, span in spans((ROOT / name).read_text(encoding="utf-8")):
            faults += [f"{name}:{number}: `{span}`: {token} is nowhere in the tree" for token in missing(span, known)]
            faults += [f"{name}:{number}: `{span}` is not there, or not in that crate"] if astray(span) else []
    print("\n".join(faults) if faults else "documents: every name that they give is there")
    return 1 if faults else 0


if __name__ == "__main__":
    sys.exit(main())
