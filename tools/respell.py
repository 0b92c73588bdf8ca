#!/usr/bin/env python3
"""Brings this repository's own definitions and lemmas to today's spelling. Run once, at the top, behind the kit's port.py.

Types, facts and modules are in upper camel case and stay. Everything else that specs/ and proofs/ declare is in snake case:
a name in lower camel case or with dashes gets underscores. A name that a file brings from the kit's libraries stays there, and
so does every name that Rattle makes (goals and steps of a function's proof). Functions of src/, exported names, strings, inputs
and outputs are not touched.

usage: python3 tools/respell.py            rewrites crates/
       python3 tools/respell.py --list     prints the names that change, old and new
       python3 tools/respell.py FILE..     rewrites the names in these pages or edits too
"""
import glob
import os
import re
import sys

os.chdir(os.path.join(os.path.dirname(os.path.realpath(__file__)), ".."))

# A word of antt's text, and what it is declared by.
WORD = re.compile(r"[^\s(){}.;,@\"«»`|/:\[\]=→∀λ<>≡+*#\\!?]+")
DECLARED = re.compile(r"^ *((?:abbrev |unfoldable |pub )*)([^\s(){}:;.,]+)((?: \{[^}]*\}| \([^)]*\))*) : ")
BLOCK = re.compile(r"^ *((?:abbrev |unfoldable |pub )*)(record|data|module) ([^\s(:]+)")
USE = re.compile(r"^\s*(?:pub )?(?:ghost )?use ([^\s{;]+?)(?:\.\{([^}]*)\})?(?: as ([^\s;]+))?;?$")
OWN = {line.split(":")[0].split()[0] for line in open("crates.txt") if line.strip() and not line.startswith("#")}
# Where the name with dashes would be its function's: a lemma gets `_lem`, a field says what it is.
LEMMAS = {
    "in-ring": "is_in_ring",
    "behind-scratch": "is_behind_scratch",
}
LEMMAS.update({
    old: old.replace("-", "_") + "_lem"
    for old in """first-day last-day recall-marks ring-marks row-column group-marks row-time row-of row-at day-before account-time
    open-day day-of ring-checks minimal-windows scratch-on""".split()
})
# Lemmas that port.py spelled as a definition is spelled now.
BARE = {it: it + "_lem" for it in "in_window step_from in_place all_digits".split()}


def texts(pattern):
    return sorted(glob.glob(pattern, recursive=True))


def is_function_proof(path):
    return "/proofs/" in path and os.path.basename(path) in ("Proof.antt", "Answers.antt", "Invariants.antt")


def snake(name):
    if name in LEMMAS:
        return LEMMAS[name]
    if not (("-" in name and re.match(r"[A-Za-zα-ω][^-]*(-[^\s-]+)+$", name)) or re.search(r"[a-z0-9][A-Z]", name) and name[0].islower()):
        return name
    out = name.replace("-", "_")
    if out[0].islower():
        out = re.sub(r"(?<=[a-z0-9])[A-Z]", lambda m: "_" + m.group(0).lower(), out)
    return out


def is_own(path):
    steps = path.split(".")
    return steps[0] == "Rattle" and len(steps) > 1 and steps[1] in OWN


def brought(text):
    """The names that a file brings from the kit's libraries."""
    out = set()
    for line in text.split("\n"):
        found = USE.match(line)
        if found and not is_own(found.group(1)):
            for item in (found.group(2) or "").split(","):
                out.update(word for word in item.split() if word != "as")
            if found.group(3):
                out.add(found.group(3))
    return out


def declared():
    names = set()
    for path in texts("crates/*/specs/**/*.antt") + texts("crates/*/proofs/**/*.antt"):
        for line in open(path, encoding="utf-8"):
            if line.startswith("--"):
                continue
            found = DECLARED.match(line)
            if found:
                # a function's proof file answers goals, whose names Rattle makes
                if is_function_proof(path) and not line.startswith(" "):
                    continue
                names.add(found.group(2))
            else:
                # several names or a name whose type stands on the next lines
                found = re.match(r"^ *((?:abbrev |unfoldable |pub )*)([^\s(){}:;.,]+)((?: \{[^}]*\}| \([^)]*\))*) :$", line.rstrip())
                if found and not is_function_proof(path):
                    names.add(found.group(2))
    return names


def renamed():
    return {name: snake(name) for name in declared() if snake(name) != name}


def answered(text):
    """The goals that a function's proof file answers."""
    return {m.group(1) for m in re.finditer(r"^(?:abbrev |pub )*([^\s(){}:;.,]+) : (?:tie|goal|statement)", text, re.M)} | {
        m.group(1) for m in re.finditer(r"^(?:abbrev |pub )*([^\s(){}:;.,]+) : .*\b(?:tie|goal)\.", text, re.M)
    }


def respelled(path, text, names):
    kept = brought(text)
    lemma_file = path.endswith(".antt") and not is_function_proof(path)
    if path.endswith(".antt") and is_function_proof(path):
        kept |= answered(text)
    out = []
    for line in text.split("\n"):
        found = USE.match(line)
        comment = line.lstrip().startswith("--") or line.lstrip().startswith("//")
        if found and not is_own(found.group(1)):
            out.append(line)
            continue

        def word(m):
            it = m.group(0)
            before = line[: m.start()]
            if it in kept and not (found and is_own(found.group(1))):
                return it
            # a name that Rattle makes, and a library's, by its path
            if re.search(r"(?:\b(?:tie|goal|lib|native|mathlib|borrow|std|Prim)\.(?:[\w.]*\.)?)$", before):
                return it
            if path.endswith(".antt") and it in BARE and not before.endswith("."):
                return BARE[it]
            if it in names:
                return names[it]
            # what a lemma binds
            if lemma_file and not comment and snake(it) != it:
                return snake(it)
            return it

        out.append(WORD.sub(word, line))
    return "\n".join(out)


def main(arguments):
    names = renamed()
    if arguments == ["--list"]:
        for old in sorted(names):
            print("%s\t%s" % (old, names[old]))
        return
    met = {}
    for old, new in names.items():
        met.setdefault(new, []).append(old)
    own = declared()
    for new, olds in sorted(met.items()):
        if len(olds) > 1 or new in own and new not in BARE:
            print("look: %s from %s" % (new, ", ".join(olds + ([new] if new in own else []))))
    files = arguments or texts("crates/*/specs/**/*.antt") + texts("crates/*/proofs/**/*.antt") + texts("crates/*/src/**/*.rt")
    for path in files:
        with open(path, encoding="utf-8") as file:
            text = file.read()
        new = respelled(path, text, names)
        if new != text:
            with open(path, "w", encoding="utf-8") as file:
                file.write(new)
    print("respell: %d names" % len(names))


main(sys.argv[1:])
