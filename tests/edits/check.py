#!/usr/bin/env python3
"""Each must-fail edit was refused because a fact no longer holds, and not because the proof no longer fits the code.

check.py [LOG]: reads what `rt ci` said of the edits, which the gate leaves in target/ci.log (`rt must-fail` says it in the same words). Fails, naming the
edit and what was said of it, where nothing was said, where rt did not refuse it, or refused it only by a limit or for a name that is gone, where the
error speaks of names, shapes or syntax, or where it is of no known kind; and where the edit changes the name of the goal that is not proved, while an answer
stands for it under the older name: then the answer is lost with the name, and the wrong answer is not what is refused. That it fails on such words is tried first.
"""
import pathlib
import re
import sys

ROOT = pathlib.Path(__file__).resolve().parents[2]
SAID = re.compile(r"^rt: must-fail (\w+)/([\w.-]+)\.edit: (.*)$", re.M)
REFUSED = re.compile(r"refused, as it must be(?:: (.*))?")
# The proof, or the source, is no longer well made: this says nothing about the wrong answer.
SHAPE = re.compile(
    r"can be named|not in scope|was not admitted|argument patterns|syntax|unexpected|parse|no such|cannot find|no clause|write the clause"
    r"|duplicate|unknown|mismatched|has no (field|`)|is no name|not covered|too many|too few|hole|\berror\["
)
# A walk by hand no longer follows the code: it looks for a local, or a place in one, that the edited code has elsewhere.
MISFIT = re.compile(r"prog\.Wp\.spot_?[oO]f|mir\.MapTy\.map_?[lL]ocal|code\.Mir\.table")
# A fact that the proof needs and that the wrong answer does not give. rt shows the first 160 characters.
FACT = re.compile(
    r"it is not proved that|expected type|as printed, the|computed as far as they go|the two types|the two sides|give a proof of that"
    r"|`search`: no proof of|omega|the goal does not follow"
    r"|no equation of the list has an instance in the goal"  # the goal is the fact, and nothing that held before proves it
)


def first_error(said):
    """The error that rt names, its place taken off."""
    refused = REFUSED.fullmatch(said)
    return re.sub(r"^\S*:\d+:\d+: ", "", re.sub(r"^note: ", "", refused.group(1) or "")).strip() if refused else ""


def fault(said):
    """What is wrong with an edit of which rt said this; nothing if it was refused by a fact."""
    if not REFUSED.fullmatch(said):
        return f"not refused, or not by an error: {said[:200]}"
    error = first_error(said)
    if not error:
        return "rt names no error"
    words = re.sub(r"`[^`]*$", "`..`", re.sub(r"`[^`]*`(?! shows it as)", "`..`", error).replace("shows it as a hole's goal", ""))
    if SHAPE.search(words) or re.search(r"has no `", error):
        return f"refused by its shape: {error[:160]}"
    if MISFIT.search(error):
        return f"refused because the walk no longer follows the code: {error[:160]}"
    if not FACT.search(error):
        return f"refused by an error of no known kind: {error[:160]}"
    return ""


# How a comparison is called in the name of a goal.
CALLED = {"==": "eq", "!=": "ne", "<": "lt", "<=": "le", ">": "gt", ">=": "ge"}
WORDS = re.compile(r"\w+|[=!<>]=|[<>]")


def lost_answer(said, edit, answered):
    """The answer that no longer applies because the edit changed its goal's name; nothing if there is none. `answered`: the names that have an answer."""
    goal = re.search(r"it is not proved that .*\(`([^`]+)`\)", said)
    if not goal or goal.group(1) in answered or "the facts known there allow values" in said:
        return ""
    old, new = ([word for line in re.findall(rf"^{which}: (.*)$", edit, re.M) for word in WORDS.findall(line)] for which in ("old", "new"))
    for is_now in set(new) - set(old):
        for was in set(old) - set(new):
            name = CALLED.get(is_now, is_now)
            beside = "[0-9]" if name.isdigit() else "[A-Za-z_]"
            older = re.sub(rf"(?<!{beside}){re.escape(name)}(?!{beside})", CALLED.get(was, was), goal.group(1))
            if older != goal.group(1) and older in answered:
                return older
    return ""


def edited_answers(crate, edit):
    """The names of the goals that a crate with an edit has an answer for."""
    found = set()
    for file in sorted((crate / "proofs").rglob("Answers.antt")):
        text, here = file.read_text(encoding="utf-8"), None
        for line in edit.split("\n"):
            if line.startswith("file: "):
                here = crate / line[6:] == file
            elif line.startswith("old: "):
                old = line[5:]
            elif line.startswith("new:") and here:
                text = text.replace(old, line[5:], 1)
        found.update(re.findall(r"^pub (\S+) : goal\.", text, re.M))
    return found


def edits():
    for edit in sorted((ROOT / "crates").glob("*/must-fail/*.edit")):
        yield edit.parts[-3], edit.stem


def self_test():
    bad = [
        "NOT REFUSED: the crate is still proved with this edit (one that means the same as before cannot be refused: remove it)",
        "BAD EDIT: an 'old:' text is in src/lib.rt 0 times, and not once",
        "BAD EDIT: the prover cannot read the edited text, so no contract was tried: specs/Symbols.antt:9:3: error: `x` is not in scope",
        "NOT TRIED: its check was killed, most likely for memory, so nothing is known of it: run this again",
        "refused, as it must be (only because a proof file names what the edit took away, so this says little of the contract: change a value and keep the names): ./proofs/A.antt:1:1: error: x",
        "refused, as it must be (only by a limit of the prover, which gave no verdict, so this says less of the contract: choose a change that it refuses sooner): a.antt:1:1: error: the two types",
        "refused, as it must be",
        "refused, as it must be: ./proofs/A.antt:1:1: error: module `p.Tie` has no `Need-returns-4` that can be named from here",
        "refused, as it must be: ./proofs/A.antt:1:1: error: `returns`: `x` is not in scope: add a `use`",
        "refused, as it must be: ./proofs/A.antt:1:1: error: `f`: no clause covers 2 cases: write the clause `f (suc n) = ..`",
        "refused, as it must be: src/lib.rt:1:1: error: something nobody has seen",
        "refused, as it must be: src/lib.rt:9:4: error[E0308]: mismatched types",
        "refused, as it must be: ./proofs/A.antt:1:1: error: `walk`: as printed, the two types first differ where one has `((prog.Wp.spot_of {M = M} record {op = .op} 6).1)`",
    ]
    good = [
        "refused, as it must be: ./proofs/is_twelve/Answers.antt:24:5: error: `returns`: as printed, the two types differ only where one has `253` (expected), right after `mathlib.Core.Path.◌≡◌",
        "refused, as it must be: ./proofs/Laws.antt:21:26: error: `hands_back`: computed as far as they go, the two types differ only where one has `new` (expected) and the other has `old` (fou",
        "refused, as it must be: ./proofs/Every.antt:21:21: error: `every-symbol`: expected type `T (f record {byte = b})`, but this has type `T (f (control_symbol b))`",
        "refused, as it must be: note: src/lib.rt:189:17: it is not proved that what the function ensures holds when it returns (`returns-then-byte`); the facts known there allow values at whic",
        "refused, as it must be: note: src/lib.rt:158:5: it is not proved that what the function ensures holds when it returns (`returns`); `search` gave up at one of its limits",
        "refused, as it must be: a.antt:8:26: error: `walk`: as printed, the two sides first differ where one has `mir.Val.WT` (left), at the start, and the other has `mir.Val.WTs`",
        "refused, as it must be: a.antt:9:13: error: `returns`: give a proof of that as the last argument, `simp L t` (`simp L ?` shows it as a hole's goal), or add what is missing",
    ]
    assert all(fault(said) for said in bad) and not any(fault(said) for said in good)
    nine = "refused, as it must be: note: src/lib.rt:9:1: it is not proved that what the function ensures holds (`returns-then-c-eq9`); `search` gave up at one of its limits"
    number, sign = "old: if c == 8 {\nnew: if c == 9 {\n", "old: if c != 9 {\nnew: if c == 9 {\n"
    assert lost_answer(nine, number, {"returns-then-c-eq8"}) == "returns-then-c-eq8" and lost_answer(nine, sign, {"returns-then-c-ne9"}) == "returns-then-c-ne9"
    assert not lost_answer(nine, number, {"returns-then-c-eq9"}) and not lost_answer(nine, number, {"returns-then-c-eq0"})
    assert not lost_answer(nine.replace("`search` gave up at one of its limits", "the facts known there allow values at which this goal"), number, {"returns-then-c-eq8"})
    log = "rt: a proved\nrt: must-fail a/b.edit: " + good[0] + "\nrt: must-fail a/c.d.edit: " + bad[0] + "\n"
    assert judged(log, [("a", "b"), ("a", "c.d"), ("a", "e")]) == [f"a/c.d: {fault(bad[0])}", "a/e: it was not tried"]
    assert judged(log + log, [("a", "b")]) == ["a/b: rt says 2 things of it", "a/c.d: rt speaks of it, and it is not there"]


def lost_here(crate, label, said):
    edit = (ROOT / "crates" / crate / "must-fail" / f"{label}.edit").read_text(encoding="utf-8")
    return lost_answer(said, edit, edited_answers(ROOT / "crates" / crate, edit))


def judged(log, wanted, lost=lambda crate, label, said: ""):
    """The faults of the edits that are there, by a log."""
    said, faults = {}, []
    for crate, label, what in SAID.findall(log):
        said.setdefault((crate, label), []).append(what)
    for edit in wanted:
        found = said.pop(edit, [])
        problem = "it was not tried" if not found else f"rt says {len(found)} things of it" if len(found) > 1 else fault(found[0])
        if not problem:
            older = lost(*edit, found[0])
            problem = f"its answer `{older}` is lost with the goal's name, so the wrong answer is not what is refused" if older else ""
        faults += [f"{'/'.join(edit)}: {problem}"] if problem else []
    return faults + [f"{'/'.join(edit)}: rt speaks of it, and it is not there" for edit in said]


def main(log):
    self_test()
    if not log.exists():
        print(f"edits: there is no {log}: the gate writes it, from what rt ci says")
        return 1
    wanted = list(edits())
    faults = judged(log.read_text(encoding="utf-8", errors="replace"), wanted, lost_here)
    print("\n".join(faults) if faults else f"edits: {len(wanted)} wrong answers, each refused by a fact that no longer holds")
    return 1 if faults or not wanted else 0


if __name__ == "__main__":
    sys.exit(main(pathlib.Path(sys.argv[1]) if len(sys.argv) > 1 else ROOT / "target" / "ci.log"))
