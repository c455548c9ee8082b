#!/usr/bin/env python3
"""Tells which must-fail edits were refused by a message that no wrong value gives: because they do not fit.

    refusals.py [FILE]      reads what `rt ci` or `rt must-fail` wrote, from FILE, else from target/ci.log, where the gate keeps it
    refusals.py --self-test checks that such a refusal is told from the others

An edit shows something only if the prover refuses it for a fact: two types that differ, a goal that does not follow, a case that
comes out otherwise. (Two types that differ may also be a proof that no longer fits a statement which is still true; this goes by the
kind of message alone, and only reading tells the two apart.) An edit whose text no longer belongs to the file, as one that makes a table without a field that tables have,
is refused as well and shows nothing. Of each edit the first message counts that is more than a consequence of another one; it is the one that the line
of the edit shows. The edit is a misfit unless that message is of a kind in FACTS; and so is one that could not be applied or read, or was not tried.

The gate ends with `rt ci`, so that this is for whoever changes a definition, after the gate. One line is printed for each misfit,
and the exit status is 1 if there is any, or if there is nothing to read.
"""

import argparse
import re
import sys
import tempfile
from pathlib import Path

# What is said of an edit: its crate and file, what came of it, and what the prover said first.
EDIT = re.compile(r"^rt: must-fail (\S+): (BAD EDIT|NOT TRIED|NOT REFUSED|refused, as it must be)(?: \(only because|: )?(.*)$", re.M)
# The message itself, without the place that it stands at and the names of the declarations that it is about.
SAYS = re.compile(r"^(?:note: )?\S+:\d+:\d+: (?:error: )?(?:`[^`]*`: )*")
# An error that follows from another one: what it needs was refused.
FOLLOWS = re.compile(r"was not admitted|\d+ declarations? that depends? on")
FACTS = re.compile(
    r"expected type|computed as far as they go|as printed, the two types|no occurrence of the path's left endpoint|(?:`(?:omega|grind)`: )?the goal does not follow|(?:`omega`: )?the part `[^`]*` of the goal does not follow"
    r"|give a proof of that|no proof of|it is not proved that"
)


def first_cause(what, said):
    """Why an edit shows nothing; None if it shows something."""
    if what != "refused, as it must be":
        return f"{what}: {said}"
    cause = SAYS.sub("", said)
    if not cause or FOLLOWS.search(cause):
        return "no error of its own"
    return None if FACTS.match(cause) else cause


def misfits(text):
    """The edits that show nothing, each with why; and how many edits there are."""
    tried = {edit: first_cause(what, said) for edit, what, said in EDIT.findall(text)}
    return [f"{edit}: {why}" for edit, why in tried.items() if why is not None], len(tried)


def tell(file):
    found, edits = misfits(file.read_text(encoding="utf-8", errors="replace") if file.is_file() else "")
    for line in found:
        print(f"refusals: {line}")
    print(f"refusals: {edits} edits, {len(found)} refused by a message that no wrong value gives")
    return 1 if found or edits == 0 else 0


# What is said of an edit, and whether it shows something.
REFUSED = "refused, as it must be"
SAMPLES = {
    "case": (f"{REFUSED}: specs/Cases.antt:4:1: error: `cases-hold`: computed as far as they go, the two types are `⊥` and `Unit`", True),
    "goal": (f"{REFUSED}: proofs/f/Answers.antt:4:1: error: `returns`: `omega`: the goal does not follow from what it read.", True),
    "part": (f"{REFUSED}: proofs/f/Answers.antt:4:1: error: `returns`: `omega`: the part `a ≤ b` of the goal does not follow from what it read.", True),
    "types": (f"{REFUSED}: ./specs/P.antt:4:1: error: `again`: expected type `A`, found `B`", True),
    "printed": (f"{REFUSED}: proofs/P.antt:4:1: error: `held`: as printed, the two types first differ where one has `t` (expected)", True),
    "rewritten": (f"{REFUSED}: proofs/P.antt:4:1: error: `held`: `rw`: no occurrence of the path's left endpoint in the goal", True),
    "contract": (f"{REFUSED}: note: src/lib.rt:9:1: it is not proved that what the function ensures holds when it returns (`returns`)", True),
    "field": (f"{REFUSED}: proofs/W.antt:2:1: error: `worst`: missing field(s) of `Table`: follows", False),
    "need": (f"{REFUSED}: proofs/P.antt:4:1: error: `Goals`: module `Goals` has no `returns` that can be named from here", False),
    "consequence": (f"{REFUSED}: proofs/P.antt:9:1: error: `f-spec`: 1 declaration that depends on `close`, which was rejected, was not checked", False),
    "admitted": (f"{REFUSED}: proofs/P.antt:9:1: error: `f-spec`: `close` was not admitted", False),
    "taken": (f"{REFUSED} (only because a proof file names what the edit took away, so this says little of the contract): proofs/P.antt:4:1: error: `f`", False),
    "limit": (f"{REFUSED} (only by a limit of the prover, which gave no verdict, so this says less of the contract): proofs/P.antt:4:1: error: `f`", False),
    "silent": (REFUSED, False),
    "gone": ("BAD EDIT: an 'old:' text is in specs/Worst.antt 0 times, and not once", False),
    "unread": ("BAD EDIT: the prover cannot read the edited text, so no contract was tried: specs/P.antt:4:1: error: `g` is not in scope", False),
    "untried": ("NOT TRIED: its check was killed, most likely for memory, so nothing is known of it: run this again", False),
    "proved": ("NOT REFUSED: the crate is still proved with this edit", False),
}


def self_test():
    with tempfile.TemporaryDirectory() as made:
        file = Path(made, "ci.log")
        said = [f"rt: must-fail crate/{name}.edit: {text}\n" for name, (text, _) in SAMPLES.items()]
        file.write_text(f"rt: rules proved\n{''.join(said)}172 passed, 0 failed\n", encoding="utf-8")
        found, edits = misfits(file.read_text(encoding="utf-8"))
    told = {line.split(":")[0] for line in found}
    right = {f"crate/{name}.edit" for name, (_, shows) in SAMPLES.items() if not shows}
    wrong = sorted(told ^ right)
    for name in wrong:
        print(f"refusals: self-test: {name} is judged wrongly")
    if edits != len(SAMPLES):
        print(f"refusals: self-test: {edits} edits are read, not {len(SAMPLES)}")
    print(f"refusals: self-test: {edits} edits, {len(right)} of them misfits")
    return 1 if wrong or edits != len(SAMPLES) else 0


def main():
    parser = argparse.ArgumentParser()
    parser.add_argument("file", nargs="?", default="target/ci.log", type=Path)
    parser.add_argument("--self-test", action="store_true")
    asked = parser.parse_args()
    return self_test() if asked.self_test else tell(asked.file)


if __name__ == "__main__":
    sys.exit(main())
