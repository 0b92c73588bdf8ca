#!/usr/bin/env python3
"""Says of each must-fail edit what refuses it. It ends with 1 where an edit shows nothing of a contract.

    tools/refusals.py --log FILE             of what `rt ci` printed into FILE: nothing is tried again
    tools/refusals.py [CRATE[/LABEL] ..]     by `rt must-fail`, which tries only what changed since it was tried last

rt tries each edit crates/CRATE/must-fail/LABEL.edit by itself, over the crate as it was proved, and says in a line what the prover
refused first: a goal of a function, with its place in the code, or an error in a law, a worked row or an answer.

What counts is a goal that is not proved, or an error in a proof: a fact does not hold. Where rt names neither, no file has an
error, and a goal stays open of a function that has no answer to it: `rt check` of the crate with the edit names it. What fails:
  - a BAD EDIT: its text stands nowhere or twice, it names what is not there, or it cannot be read; so no contract was tried;
  - NOT REFUSED: the crate is proved with it; NOT TRIED: its check came to no end;
  - refused only because a proof file names what the edit took away, because a name is missing, or by a limit of the prover;
  - an edit of which rt says nothing, and a file below must-fail/ that is no edit.
What it can't tell: a goal that is false from one that the edit gave another name, so that its answer is not found. Read the goal.
"""
import glob
import os
import re
import subprocess
import sys

ROOT = os.path.dirname(os.path.dirname(os.path.abspath(__file__)))
SAID = re.compile(r"^rt: must-fail (\w+)/(\S+)\.edit: (.*said:\n.*|.*)$", re.M)
REFUSED = "refused, as it must be"
# a place of the crate, and the goal or the declaration that fails there
GOAL = re.compile(r"(?:note: )?(?:\./)?((?:src|specs|proofs)/\S+?:\d+):\d+: (?:error: `([^`]*)`|.*?\(`([^`]*)`\))?")
NO_FACT = re.compile(r"is not in scope|has no field|has no `|is no name|was not admitted|operand is missing|expected the end|cannot continue")


def files():
    """The files below the must-fail/ of each crate: the edits by their names, and what is none."""
    edits, others = set(), []
    for path in sorted(glob.glob(os.path.join(ROOT, "crates", "*", "must-fail", "**"), recursive=True)):
        crate, inside = re.search(r"crates/(\w+)/must-fail/(.*)$", path).groups()
        if os.path.isfile(path) and re.fullmatch(r"[\w.-]+\.edit", inside):
            edits.add("%s/%s" % (crate, inside[: -len(".edit")]))
        elif os.path.isfile(path) and not path.endswith(".md"):
            others.append("%s: %s is no edit: edits stand right in must-fail/" % (crate, inside))
    return edits, others


def judge(said):
    """Whether an edit is refused for a fact, and what to say of it."""
    if said == REFUSED:
        return True, "a goal that nothing answers stays open"
    if not said.startswith(REFUSED + ": "):
        return False, said
    what = said[len(REFUSED + ": ") :]
    found = GOAL.match(what)
    if not found:
        return False, "NO PLACE: " + what
    if ": error: " in what and NO_FACT.search(re.sub(r"`[^`]*`", "``", what)):
        return False, "NO FACT: " + what
    goal = found.group(2) or found.group(3)
    return True, "%s %s" % (found.group(1), goal) if goal else what


def tried(crates):
    run = subprocess.run(["rt", "must-fail", *crates], cwd=ROOT, stdout=subprocess.PIPE, stderr=subprocess.STDOUT, text=True, errors="replace")
    if not SAID.search(run.stdout):
        sys.exit("refusals: rt must-fail tried no edit:\n" + run.stdout)
    return run.stdout


def main(words):
    edits, others = files()
    if words[:1] == ["--log"]:
        with open(words[1], errors="replace") as f:
            text = f.read()
    else:
        wanted = lambda it: not words or it in words or it.split("/")[0] in words
        edits = {it for it in edits if wanted(it)}
        others = [it for it in others if wanted(it.split(":")[0])]
        print("refusals: rt must-fail (at once, or minutes after a change)", flush=True)
        text = tried(sorted({it.split("/")[0] for it in edits}))
    said = {"%s/%s" % (crate, label): what for crate, label, what in SAID.findall(text)}
    failed = len(others)
    for edit in sorted(edits):
        good, what = judge(said.get(edit, "rt says nothing of it"))
        print("refusals: %s: %s" % (edit, what if good else "FAILED, " + what))
        failed += not good
    for other in others:
        print("refusals: " + other)
    print("refusals: %d refused, %d failed" % (len(edits) + len(others) - failed, failed))
    sys.exit(1 if failed or not edits else 0)


main(sys.argv[1:])
