#!/usr/bin/env python3
"""Every public function of a library crate has a contract in the settled form, asks nothing of its caller, and stands in docs/CONTRACTS.md.

The settled form: an `ensures { .. }` of equations joined by ×, after any `let`, or several with a name each: one whose left side is the answer (`result`, or what it
says, `..says result`), and one `x.new ≡ ..` for each parameter x that is lent to be written (`&mut`). Nothing else, so that the answer and all lent memory are said, each once.
A function that answers nothing and is lent nothing to write needs only its name in that file; every other one a row there with two must-fail edits.
Fails, naming the function, for each fault. `check.py --self-test` shows that each kind of fault is found.
"""
import pathlib
import re
import sys

ROOT = pathlib.Path(__file__).resolve().parents[2]
FUNCTION = re.compile(r'^[ \t]*(pub |pub\([^)]*\) |)(?:const |unsafe )*(extern "C" |)fn «?(\w+)', re.M)
CLAUSE = re.compile(r"(requires|ensures|ghost)\b(\*?)\s*«?(\w*)»?\s*:?\s*(?=\{)")
# what a function answers that prints: the system's failure, of which no clause can speak, and nothing else
PRINTS = re.compile(r"\(rt: &impl Print\b.*->\s*io::Result<\(\)>\s*$", re.S)

# (crate, function): why it is not in the settled form
EXCEPTIONS = {
    ("pane", "open"): "a pane holds a slice, which has no equation of its own: each field of the pane is said by one",
    ("pane", "forward"): "each field of the lent pane is said by one equation",
    ("pane", "back"): "each field of the lent pane is said by one equation",
}


def heads(text):
    """(exported to C, name, parameters and answer, clauses) of each public function in a source"""
    text = re.sub(r"//[^\n]*", "", text)
    starts = list(FUNCTION.finditer(text))
    for this, after in zip(starts, starts[1:] + [None]):
        if this.group(1) == "pub ":
            yield bool(this.group(2)), this.group(3), *head(text[this.end():after.start() if after else len(text)])


def block(text, at):
    """where the block of brackets that opens at a place ends"""
    depth = 0
    for i in range(at, len(text)):
        depth += (text[i] in "({[") - (text[i] in ")}]")
        if depth == 0:
            return i + 1
    return len(text)


def head(text):
    """what stands before the clauses, and the clauses (kind, with a star or not, name, text) before the body"""
    at, signature, clauses = 0, None, []
    while at < len(text) and text[at] != "{":
        clause = CLAUSE.match(text, at) if text[at - 1:at].isspace() else None
        if clause:
            signature = text[:at] if signature is None else signature
            end = block(text, clause.end())
            clauses.append((clause.group(1), clause.group(2), clause.group(3), text[clause.end() + 1:end - 1]))
            at = end
        else:
            at = block(text, at) if text[at] in "([" else at + 1
    return text[:at] if signature is None else signature, clauses


def functions(crate):
    """(file, name, parameters and answer, clauses) of each function that another crate, or C, can call"""
    root = (crate / "src" / "lib.rt").read_text(encoding="utf-8")
    private = set(re.findall(r"^mod (\w+);", root, re.M))
    passed_on = set(re.findall(r"\w+", " ".join(re.findall(r"^pub use ([^;]*);", root, re.M))))
    for source in sorted((crate / "src").rglob("*.rt")):
        for exported, name, signature, clauses in heads(source.read_text(encoding="utf-8")):
            if exported or source.stem not in private or name in passed_on:
                yield source.relative_to(ROOT), name, signature, clauses


def parts(text, sign):
    """text cut at each `sign` that stands in no bracket"""
    found, depth, start = [], 0, 0
    for at, c in enumerate(text):
        depth += (c in "({[") - (c in ")}]")
        if c == sign and depth == 0:
            found.append(text[start:at])
            start = at + 1
    return [p.strip() for p in found + [text[start:]]]


def bare(text):
    """text without brackets around the whole of it"""
    text = text.strip()
    while text.startswith("(") and text.endswith(")"):
        depth = 0
        for at, c in enumerate(text):
            depth += (c == "(") - (c == ")")
            if depth == 0 and at < len(text) - 1:
                return text
        text = text[1:-1].strip()
    return text


def body(text):
    """what follows the `let .. in`s that a contract begins with"""
    text = bare(text)
    while text.startswith("let "):
        depth = 0
        for at in range(len(text)):
            depth += (text[at] in "({[") - (text[at] in ")}]")
            if depth == 0 and text.startswith(" in ", at):
                text = bare(text[at + 4:])
                break
        else:
            return ""
    return text


def form(signature, clauses):
    """the faults of a function's contract, given what stands before its clauses, and these"""
    kinds = [kind for kind, _, _, _ in clauses]
    for kind in ("requires", "ghost"):
        if kind in kinds:
            return [f"has a {kind}"]
    lent = re.findall(r"«?(\w+)»?\s*:\s*&(?:'\w+\s+)?mut\b", signature) + re.findall(r"&(?:'\w+\s+)?mut (self)\b", signature)
    answers = "->" in signature
    if not clauses and not lent and (not answers or PRINTS.search(signature)):
        return []  # it answers nothing, or only whether the system took what it prints, and is lent nothing to write: there is nothing to promise
    if not clauses or any(star for _, star, _, _ in clauses):
        return ["has no contract of plain facts"]
    names = [name for _, _, name, _ in clauses]
    if len(names) > 1 and len(set(names) - {""}) < len(names):
        return ["has clauses that share a name, or have none"]
    faults, said = [], []
    for one in [one for _, _, _, text in clauses for one in parts(body(" ".join(text.split())), "×")]:
        sides = parts(bare(one), "≡")
        if len(sides) != 2 or any(len(parts(sides[1], sign)) > 1 for sign in "→⊎∨↔∧"):
            faults.append(f"promises what is no equation: {one[:60]}")
            continue
        new = re.fullmatch(r"«?(\w+)»?\.new", bare(sides[0]))
        if new:
            said.append(new.group(1))
        elif re.fullmatch(r"((\w+_)?says )?result", bare(sides[0])):
            said.append(None)
        else:
            faults.append(f"has an equation of neither the answer nor a lent thing: {sides[0][:60]}")
    if None not in said and answers:
        faults.append("does not say its answer")
    faults += [f"does not say what {x} holds afterwards" for x in lent if x not in said]
    faults += [f"says twice what {x or 'it answers'} is" for x in sorted(set(said), key=str) if said.count(x) > 1]
    return faults


def rows(document, labels):
    """name of a function -> the most edits that a row with that name in its first cell names"""
    found = {}
    for line in document.split("\n"):
        cells = line.split(" | ")
        if line.startswith("| ") and len(cells) > 1:
            edits = labels.intersection(re.findall(r"\w+", " ".join(cells[1:])))
            for name in re.findall(r"\w+", cells[0]):
                found[name] = max(found.get(name, 0), len(edits))
    return found


def faults_of(crate, name, signature, clauses, listed):
    """every fault of one function; `listed`: the words of docs/CONTRACTS.md"""
    found = [] if name in listed else ["is not in docs/CONTRACTS.md"]
    wrong = form(signature, clauses)
    if (crate, name) in EXCEPTIONS:
        # still no condition, and an exception that is none is a fault
        return found + [w for w in wrong if re.match("has (a|no|clauses) ", w)] + ([] if wrong else ["is listed as an exception and is none"])
    return found + wrong


GOOD = """(a: u32, out: &mut [u8], n: &mut u32) -> u32
    ensures { let w = rule a out.old in (result ≡ w.refusal) × (out.new ≡ w.out) × (n.new ≡ w.n) }
{
"""
NAMED = """(a: u32, out: &mut [u8]) -> u32
    ensures answer { result ≡ (rule a out.old).refusal }
    ensures left { out.new ≡ (rule a out.old).out }
{
"""
WRONG = [
    ("is not in docs/CONTRACTS.md", "unlisted", GOOD),
    ("has a requires", "f", GOOD.replace("    ensures", "    requires { a < 4 }\n    ensures")),
    ("has a ghost", "f", GOOD.replace("    ensures", "    ghost top: { ℕ }\n    ensures")),
    ("has no contract of plain facts", "f", "(a: u32) -> u32\n{\n"),
    ("has no contract of plain facts", "f", "(a: u32) -> io::Result<()>\n{\n"),
    ("has no contract of plain facts", "f", "(rt: &impl Print, a: u32) -> io::Result<u32>\n{\n"),
    ("has no contract of plain facts", "f", "(rt: &impl Print, a: &mut u32) -> io::Result<()>\n{\n"),
    ("has no contract of plain facts", "f", "(a: &mut u32)\n{\n"),
    ("has no contract of plain facts", "f", "(a: u32) -> u32 {\n    ensures { result ≡ a }\n"),
    ("has no contract of plain facts", "f", GOOD.replace("ensures", "ensures*")),
    ("has clauses that share a name, or have none", "f", NAMED.replace(" left", " answer")),
    ("has clauses that share a name, or have none", "f", NAMED.replace(" left", "")),
    ("promises what is no equation", "f", "(a: u32) -> u32\n    ensures { result ≤ a }\n{\n"),
    ("promises what is no equation", "f", GOOD.replace("(result ≡ w.refusal)", "(result ≤ w.refusal)")),
    ("promises what is no equation", "f", "(a: u32) -> u32\n    ensures { (result ≡ a) ⊎ (result ≡ 0) }\n{\n"),
    ("promises what is no equation", "f", "(a: u32) -> u32\n    ensures { result ≡ a ⊎ ℕ }\n{\n"),
    ("promises what is no equation", "f", "(a: u32) -> u32\n    ensures { a < 4 → result ≡ a ≡ a }\n{\n"),
    ("promises what is no equation", "f", NAMED.replace("out.new ≡", "length out.new ≤")),
    ("does not say what n holds afterwards", "f", GOOD.replace(" × (n.new ≡ w.n)", "")),
    ("does not say what n holds afterwards", "f", GOOD.replace("(n.new ≡ w.n)", "(n.old ≡ w.n)")),
    ("does not say what self holds afterwards", "f", "(&mut self) -> u32\n    ensures { result ≡ 0 }\n{\n"),
    ("has an equation of neither", "f", GOOD.replace("(n.new ≡ w.n)", "(length n.new ≡ w.n)")),
    ("has an equation of neither", "f", GOOD.replace("(n.new ≡ w.n)", "(n.old ≡ w.n)")),
    ("does not say its answer", "f", GOOD.replace("(result ≡ w.refusal) × ", "")),
    ("does not say its answer", "f", NAMED.replace("    ensures answer { result ≡ (rule a out.old).refusal }\n", "")),
    ("has an equation of neither", "f", "(a: u32) -> u32\n    ensures { result / 2 ≡ a / 2 }\n{\n"),
    ("has an equation of neither", "f", "(a: u32) -> u32\n    ensures { a < 4 → result ≡ a }\n{\n"),
    ("says twice what it answers is", "f", GOOD.replace("(result ≡ w.refusal)", "(result ≡ w.refusal) × (result ≡ 0)")),
    ("says twice what it answers is", "f", NAMED.replace("out.new", "result")),
]


def self_test():
    """none in what is right, and each fault is found in what has it"""
    right = [
        GOOD,
        NAMED,
        "(a: u32) -> Answer\n    ensures { some_says result ≡ rule a }\n{\n",
        "(a: u32) -> Answer\n    ensures { says result ≡ rule a }\n{\n",
        "(x: &'a [u8]) -> bool\n    ensures { result ≡ legal x.now }\n{\n",
        "(\n    n: &mut u32,\n)\n    ensures { (let old = n.old in let after = rule old in (n.new ≡ after.n)) }\n{\n",
        "(r: u8) {\n    g(r);\n}\n",
    ]
    missed = [r for r in right if faults_of("c", "f", *head(r), {"f"})]
    missed += [w for fault, name, w in WRONG if not any(f.startswith(fault) for f in faults_of("c", name, *head(w), {"f"}))]
    bare_one = "pub fn f(x: u8) -> u8 {\n    x\n}\n\nfn g() -> u8\n    ensures { result ≡ 0 }\n{\n    0\n}\n"
    missed += [bare_one] if [faults_of("c", n, s, c, {"f"}) == [] for _, n, s, c in heads(bare_one)] != [False] else []
    derived = '#![tactic(auto)]\n\n#[derive(Clone, Copy)]\npub struct S {\n    pub x: u8,\n}\n\n#[unsafe(no_mangle)]\npub extern "C" fn f(s: S) -> u8\n    ensures { result ≡ s.x }\n{\n    s.x\n}\n'
    missed += [derived] if [(e, n, form(s, c)) for e, n, s, c in heads(derived)] != [(True, "f", [])] else []
    table = "| function | x |\n| `f(a)` | `one`, `two` |\n| `g` | `one` |\n"
    missed += [table] if rows(table, {"one", "two"}) != {"function": 0, "f": 2, "a": 2, "g": 1} else []
    print("\n".join("self-test: not told: " + m for m in missed) if missed else f"contracts: each of {len(WRONG) + 1} wrong contracts is found")
    return 1 if missed else 0


def main():
    document = (ROOT / "docs" / "CONTRACTS.md").read_text(encoding="utf-8")
    listed = set(re.findall(r"\w+", document))
    edits = rows(document, {path.stem for path in ROOT.glob("crates/*/must-fail/*.edit")})
    faults, count, seen = [], 0, set()
    for crate in sorted((ROOT / "crates").iterdir()):
        if (crate / "src" / "main.rt").exists():
            continue
        for source, name, signature, clauses in functions(crate):
            count += 1
            seen.add((crate.name, name))
            faults += [f"{source}: {name} {f}" for f in faults_of(crate.name, name, signature, clauses, listed)]
            if name in listed and clauses and edits.get(name, 0) < 2:
                faults.append(f"{source}: {name} has a row with {edits.get(name, 0)} edits, and not two")
    faults += [f"the exception {c}::{n} is no public function" for c, n in EXCEPTIONS if (c, n) not in seen]
    print("\n".join(faults) if faults else f"contracts: {count} public functions, each listed, each one equation of its answer and of each lent thing, none with a requires")
    return 1 if faults or count == 0 else 0


if __name__ == "__main__":
    sys.exit(self_test() if sys.argv[1:] == ["--self-test"] else main())
