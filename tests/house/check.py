#!/usr/bin/env python3
"""The house is in order: files a reader can take in, and names that cannot be taken for one another.

Fails, naming the place, where a file has over 300 lines, where a line of a source or a definition is over WIDE characters,
where a crate shares its name with a module of another crate, where a file does not begin by saying what it is for, or where
it brings in a name that it does not use. That such a name is found is tried first.
"""
import pathlib
import re
import sys

ROOT = pathlib.Path(__file__).resolve().parents[2]
LINES, WIDE = 300, 200
# Each one table, an entry a line as the formatter lays it out.
LONG = {"crates/character_table/src/lib.rt", "crates/run_table/src/lib.rt"}


def texts():
    """Every text that we write and a reader reads; what rt makes stands in the crates' out/."""
    for top in ("crates", "tests", "include", "examples", "bench", "tools"):
        for path in sorted((ROOT / top).rglob("*")):
            if path.relative_to(ROOT).parts[2:3] == ("out",) or "__pycache__" in path.parts:
                continue
            if path.is_file() and (path.suffix in (".rt", ".antt", ".py", ".c", ".h", ".cpp", ".sh") or path.name in ("run", "cc")):
                yield path


IMPORT = re.compile(r"^[ \t]*(?:ghost )?use [^\s{]+\.\{([^}]*)\};?[ \t]*$", re.M)


def unused(text):
    """The names that `use` lines of antt bring in, wherever they stand, and that nothing else in the file has."""
    text = re.sub(r"--.*|//.*", "", text)
    body = IMPORT.sub("", text)
    words = set(re.split(r"[\s(){}⌜⌝,;.\[\]]+", body))
    for found in IMPORT.finditer(text):
        for name in found.group(1).split(","):
            name = name.split(" as ")[-1].strip()
            # an operator: the import has a ◌ for each of its operands
            parts = [part for part in name.split("◌") if part] if "◌" in name else [name]
            if name and name not in words and not words.issuperset(parts) and not (name == "[]" and name in body) and name != "arith":
                yield name


def faults():
    crates = {path.name for path in (ROOT / "crates").iterdir()}
    for path in texts():
        name = path.relative_to(ROOT)
        lines = path.read_text(encoding="utf-8").split("\n")
        if len(lines) > LINES and str(name) not in LONG:
            yield f"{name}: {len(lines)} lines"
        if path.suffix == ".rt" or "specs" in name.parts:
            wide = [i for i, line in enumerate(lines, 1) if len(line) > WIDE]
            if wide:
                yield f"{name}:{wide[0]}: {len(lines[wide[0] - 1])} characters"
        if path.suffix == ".rt":
            own = name.parts[1]
            modules = re.findall(r"^(?:pub )?mod (\w+);", "\n".join(lines), re.M)
            for module in sorted(crates.intersection(modules) - {own}):
                yield f"{name}: the module {module} has the name of a crate"
        if path.suffix in (".antt", ".rt"):
            yield from (f"{name}: {word} is brought in and not used" for word in unused("\n".join(lines)))
        if path.suffix == ".antt" and path.name != "Lib.antt" and not lines[0].startswith("--"):
            yield f"{name}: does not say what it is for"
        if path.suffix == ".rt" and not lines[0].startswith("//"):
            yield f"{name}: does not say what it is for"


def self_test():
    """a name that is used is not told, and one that is not is"""
    assert list(unused("use A.b.{x, y_z, x_y, ◌+◌, ◌-◌, []}\nf : ℕ\nf = x + y_z -- x_y - []\n")) == ["x_y", "◌-◌", "[]"]
    assert list(unused("ghost use A.b.{\n    one, two as three, four as one,\n};\n\nfn f() -> u8\n    ensures { result ≡ (three, one) }\n{\n    ghost use C.{◌×◌};\n    2\n}\n")) == ["◌×◌"]
    assert list(unused("use A.{◌==◌, if◌then◌, [◌], ⊎_elim}\nf = if [] then (x == y)\ng = foldl ◌++◌ ⊎_elim\n")) == ["[◌]"]


def main():
    self_test()
    found = list(faults())
    print("\n".join(found) if found else "house: in order")
    return 1 if found else 0


if __name__ == "__main__":
    sys.exit(main())
