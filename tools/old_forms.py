#!/usr/bin/env python3
"""Lists, for each point of docs/DESIGN-PASS.md, the places of a tree's sources that have the older form: old_forms.py [FOLDER], with crates/ in it.

It reads text: a place is where to look, and not a fault. `old_forms.py --count` prints the numbers alone.
"""
import collections
import pathlib
import re
import sys


def sources(root):
    """(crate and file, text without comments) of each source"""
    for path in sorted((root / "crates").glob("*/src/**/*.rt")):
        yield str(path.relative_to(root / "crates")), re.sub(r"//[^\n]*", "", path.read_text(encoding="utf-8"))


HEAD = re.compile(r"\bfn (\w+)(?:<[^>]*>)?\(([^{]*?)\)\s*(?:->\s*([^{]*?))?\s*(?=\n\s*(?:requires|ensures)|\{)", re.S)


def functions(text):
    """(name, [(parameter, type)], answer, clauses, body's text to the next function) of each function"""
    heads = list(HEAD.finditer(text))
    for this, after in zip(heads, heads[1:] + [None]):
        rest = text[this.end():after.start() if after else len(text)]
        clauses, body = (rest.split("\n{", 1) + [""])[:2] if rest.lstrip().startswith(("requires", "ensures")) else ("", rest)
        parts = [p.strip() for p in re.split(r",\s*(?![^<\[(]*[>\])])", this[2].strip())]
        params = [tuple(p.split(": ", 1)) if ": " in p else ("self", p) for p in parts if p]
        yield this[1], params, (this[3] or "").strip(), " ".join(clauses.split()), body


def own_results(root):
    """1: enums of the shape of Option or Result, flags with a value beside, numbers for kinds or refusals"""
    for file, text in sources(root):
        for name, variants in re.findall(r"enum (\w+) \{(.*?)\n\}", text, re.S):
            if re.search(r"\bRefused\(", variants):
                yield file, f"enum {name} with a refusal among its answers"
            arms = re.findall(r"^    (\w+)", variants, re.M)
            if len(arms) == 2 and re.search(r"^    (No\w+|Unknown|Nothing|Missing),", variants, re.M):
                yield file, f"enum {name} of the shape of Option"
        for name, fields in re.findall(r"struct (\w+)[^{;]*\{(.*?)\n\}", text, re.S):
            if re.search(r"\brefusal: u", fields):
                yield file, f"struct {name} with a refusal's number beside its values"
            for flag in re.findall(r"\b(sent|delivered|moved|found): bool", fields):
                yield file, f"struct {name} with the flag {flag} beside its values"
        for name in re.findall(r"const (\w+): u8 = \d+;", text):
            yield file, f"const {name}, a number for a kind"
        for name in re.findall(r"^    Violation\(u8\)", text, re.M):
            yield file, "violations by number"
        for name, params, answer, clauses, _ in functions(text):
            if answer == "u8" and "refusal" in clauses:
                yield file, f"fn {name} answers a refusal's number"
            if any(p == "refusal" and t.startswith("u") for p, t in params) or (name == "print_refusal"):
                yield file, f"fn {name} is given a refusal's number"
            for p, t in params:
                if p in ("what", "which", "call") and t == "u8":
                    yield file, f"fn {name} is told by a number which call it is"


def twins(root):
    """2: functions of one name and one list of parameter types, in two places or more"""
    found = collections.defaultdict(list)
    for file, text in sources(root):
        for name, params, answer, _, _ in functions(text):
            # what is called `new` or `step` in two types is two things
            if name not in ("main", "fmt", "from", "try_from", "new") and not any(p == "self" for p, _ in params):
                found[name, tuple(t for _, t in params), answer].append(file)
    for (name, _, _), files in sorted(found.items()):
        for file in files if len(files) > 1 else []:
            yield file, f"fn {name}, which stands {len(files)} times"


def loops(root):
    """3: loops that count: `while`, and `for` over a range whose number is an index"""
    for file, text in sources(root):
        for name, _, _, _, body in functions(text):
            for _ in re.findall(r"^\s*while ", body, re.M):
                yield file, f"fn {name}: while"
            for index in re.findall(r"^\s*for (\w+) in .*\.\.", body, re.M):
                brackets = re.findall(rf"\w\[([^\]]*\b{index}\b[^\]]*)\]", body)
                if any(".." not in inside for inside in brackets):
                    yield file, f"fn {name}: for {index} over a range"


BY_HAND = re.compile(r"^(wide\w*|two|mark|mark_number|number_of|digit|high|larger|lesser|is_ended|print_name|print_refusal|print_event|with_counters|moved|answer|bytes_of)$")


def by_hand(root):
    """4: equality, order, copying, conversion and printing written by hand"""
    for file, text in sources(root):
        for name, _, _, _, body in functions(text):
            if BY_HAND.match(name):
                yield file, f"fn {name}"
            for a, b in re.findall(r"(\w+)\.\w+ == (\w+)\.\w+ && \1\.\w+ == \2\.", body):
                yield file, f"fn {name}: {a} and {b} compared field by field"
            for kind, copied in re.findall(r"\b([A-Z]\w+) \{((?:\s*\w+: (\w+)\.\w+,)+)", body) and [(m[1], m[2]) for m in re.finditer(r"\b([A-Z]\w+) \{([^{}]*)\}", body)]:
                same = re.findall(r"\b(\w+): \w+\.\1\b", copied)
                if len(same) > 1:
                    yield file, f"fn {name}: a {kind} copied field by field"


def travelling(root):
    """5: facts in the contracts of three functions or more, and three parameters that go together through three functions or more"""
    facts, together = collections.defaultdict(list), collections.defaultdict(set)
    for file, text in sources(root):
        for name, params, _, clauses, _ in functions(text):
            for fact in re.findall(r"requires \{(.*?)\}(?= ensures|$)", clauses):
                for one in fact.split("×"):
                    facts[one.strip(" ()")].append(f"{file}: fn {name}")
            held = [f"{p}: {t}" for p, t in params]
            for i in range(len(held) - 2):
                together[file.split("/")[0], tuple(held[i:i + 3])].add(f"{file}: fn {name}")
    for fact, places in facts.items():
        if len(places) > 2:
            yield places[0].split(":")[0], f"'{fact}' in {len(places)} contracts"
    for (_, three), places in together.items():
        if len(places) > 2:
            yield sorted(places)[0].split(":")[0], f"({', '.join(three)}) in {len(places)} functions"


def arrays(root):
    """6: arrays side by side"""
    for file, text in sources(root):
        for name, fields in re.findall(r"struct (\w+)[^{;]*\{(.*?)\n\}", text, re.S):
            lengths = collections.Counter(re.findall(r"\[[^\]]*; (\w+)\]", fields))
            for length, n in lengths.items():
                if n > 1:
                    yield file, f"struct {name}: {n} arrays of {length} side by side"
        for name, params, _, clauses, _ in functions(text):
            slices = [p for p, t in params if re.match(r"&(mut )?\[", t)]
            for p, t in params:
                if p == "n" and t == "usize" and slices:
                    yield file, f"fn {name}: {', '.join(slices)} with a length beside"


def switches(root):
    """7: a number that says which step to run"""
    for file, text in sources(root):
        for name, params, _, _, body in functions(text):
            for p, t in params:
                if t == "u8" and re.search(rf"match {p} \{{", body) and re.search(r"=> \w+\(", body):
                    yield file, f"fn {name}: a switch on {p}"


def answers(root):
    """8: files of answers and invariants"""
    for path in sorted((root / "crates").glob("*/proofs/**/*.antt")):
        if path.name in ("Answers.antt", "Invariants.antt"):
            yield str(path.relative_to(root / "crates")), f"{len(path.read_text(encoding='utf-8').splitlines())} lines"


POINTS = [own_results, twins, loops, by_hand, travelling, arrays, switches, answers]


def main():
    args = [a for a in sys.argv[1:] if a != "--count"]
    root = pathlib.Path(args[0]) if args else pathlib.Path(__file__).resolve().parents[1]
    for point in POINTS:
        places = list(point(root))
        print(f"{point.__doc__}: {len(places)}")
        if "--count" not in sys.argv:
            for file, what in places:
                print(f"  {file}: {what}")


if __name__ == "__main__":
    main()
