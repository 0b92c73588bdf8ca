#!/usr/bin/env python3
"""Compares what each crate shows with what docs/SURFACE.md says of it.

    tools/surface.py

1. A function that another crate can name is a customer's call (SURFACE.md, "Calls of the parts") or is used by another crate;
   whatever else leaves its module is `pub(crate)`.
2. The functions with a `requires` that leave their module are those of the tables "Functions with a `requires`": of the first
   table those that another crate can name, of the second those that stay in their crate. None of the calls has one.
3. A part above rests on the contracts, the definitions and the laws of the part below, and on nothing inner: it cites no
   specs/Inner of another crate, opens no state that stays shut, and cites only laws that do not cite Inner themselves, but for
   those of the shut state (rings: StartsLaws). Each of these laws is used above, in a proof and not in a `use` alone: where one is
   not, the check may have found its fact by itself, in the state. That each answer goes by the laws, this does not see.

It says what differs and ends with 1, or ends with 0.
"""
import glob
import os
import re
import sys

ROOT = os.path.dirname(os.path.dirname(os.path.abspath(__file__)))
SHUT_LAWS = {"rings.StartsLaws"}
faults = []


def read(*parts):
    with open(os.path.join(ROOT, *parts)) as f:
        return f.read()


def crates():
    return re.findall(r"^([a-z0-9_]+)(?: staticlib)?:", read("crates.txt"), re.M)


def sources(crate):
    """Each module of a crate by its name, the root as ''."""
    found = {}
    for path in sorted(glob.glob(os.path.join(ROOT, "crates", crate, "src", "*.rt"))):
        name = os.path.basename(path)[:-3]
        with open(path) as f:
            found["" if name in ("lib", "main") else name] = f.read()
    return found


def functions(text):
    """(name, visibility, has a requires, its type or '') of each function of a module and of each method of its types' own."""
    blocks = [("", "", text)]
    blocks += [("    ", m.group(1), m.group(2)) for m in re.finditer(r"^impl(?:<[^>]*>)? ([A-Z]\w*)(?:<[^>]*>)? \{\n(.*?)^\}", text, re.M | re.S)]
    found = []
    for indent, owner, block in blocks:
        pattern = re.compile(r'^%s(pub(?:\(crate\))? )?(?:extern "C" )?fn ([a-z_0-9]+)(.*?)^%s\{' % (indent, indent), re.M | re.S)
        for m in pattern.finditer(block):
            requires = re.search(r"^    %srequires\b" % indent, m.group(3), re.M) is not None
            found.append((m.group(2), (m.group(1) or "").strip(), requires, owner))
    return found


def uses(text, word):
    """The paths that the items `use` and `pub use` (word) of a module name: a::{b, c::d} is a::b and a::c::d."""

    def paths(tree):
        head, brace, inner = tree.partition("{")
        if not brace:
            return [tree.split(" as ")[0]]
        parts, depth, one = [], 0, ""
        for c in inner[: inner.rindex("}")] + ",":
            depth += (c == "{") - (c == "}")
            if c == "," and depth == 0:
                parts, one = parts + [one] if one else parts, ""
            else:
                one += c
        return [head + path for part in parts for path in paths(part)]

    items = re.findall(r"^%s ([^;]+);" % word, text, re.M)
    return {path for item in items for path in paths(re.sub(r"\s+(?!as )|(?<!as)\s+", "", item))}


def shown(crate):
    """The functions and methods of a crate that another one can name, as module::name, with whether they have a requires."""
    modules = sources(crate)
    root = modules.get("", "")
    open_modules = set(re.findall(r"^pub mod ([a-z_]+);", root, re.M))
    exported = {re.sub("^crate::", "", path) for text in [root] + [modules[m] for m in open_modules] for path in uses(text, "pub use")}
    found = {}
    for module, text in modules.items():
        for name, visibility, requires, owner in functions(text):
            full = "%s::%s" % (module, name)
            if visibility == "pub" and (module in open_modules or "%s::%s" % (module, owner or name) in exported):
                found[full] = requires
    return found


def used(crate):
    """The functions and methods of a crate that other crates use, by their last names."""
    methods = {name for text in sources(crate).values() for name, _, _, owner in functions(text) if owner}
    names = set()
    for other in crates():
        if other != crate:
            for text in sources(other).values():
                names |= {path.split("::")[-1] for path in uses(text, "(?:pub )?use") if path.startswith(crate + "::")}
                # a method is called by its name
                names |= set(re.findall(r"(?:\.|\b[A-Z]\w*::)([a-z_0-9]+)\(", text)) & methods
    return names


def table(title):
    """The functions named in the first column of a table of SURFACE.md, as (crate, module::name)."""
    text = read("docs", "SURFACE.md")
    if title not in text:
        faults.append("docs/SURFACE.md has no heading %r" % title)
        return set()
    found = set()
    for line in text.split(title, 1)[1].split("\n#", 1)[0].split("\n"):
        cell = re.match(r"\| (?:`)?([a-z]+): ([a-z_0-9:, ]+?)(?:`)? \|", line)
        if cell:
            found |= {(cell.group(1), one.strip()) for one in cell.group(2).split(",")}
    return found


def compare(what, sources_say, page_says):
    for crate, name in sorted(sources_say - page_says):
        faults.append("%s: %s %s is not listed in docs/SURFACE.md" % (what, crate, name))
    for crate, name in sorted(page_says - sources_say):
        faults.append("%s: docs/SURFACE.md lists %s %s, which is none" % (what, crate, name))


def check_surface():
    calls = table("## Calls of the parts")
    outer, inner = set(), set()
    for crate in crates():
        visible, wanted = shown(crate), used(crate)
        for full, requires in visible.items():
            if requires:
                outer.add((crate, full))
            if (crate, full) in calls:
                if requires:
                    faults.append("call: %s %s has a requires" % (crate, full))
            elif full.split("::")[1] not in wanted:
                faults.append("surface: %s %s is shown, no call, and no other crate uses it" % (crate, full))
        for module, text in sources(crate).items():
            for name, visibility, requires, _ in functions(text):
                full = "%s::%s" % (module, name)
                if visibility == "pub" and full not in visible and not is_export(crate, full):
                    faults.append("surface: %s %s says pub, and no other crate can name it" % (crate, full))
                if visibility == "pub(crate)" and requires:
                    inner.add((crate, full))
        for full in {name for owner, name in calls if owner == crate} - set(visible):
            faults.append("call: docs/SURFACE.md lists %s %s, which no other crate can name" % (crate, full))
    compare("requires, another crate's", outer, table("## Functions with a `requires` that another crate can name"))
    compare("requires, in its crate", inner, table("## Functions with a `requires` that stay in their crate"))


def is_export(crate, full):
    module, name = full.split("::")
    return re.search(r'^pub extern "C" fn %s\(' % name, sources(crate)[module], re.M) is not None


def check_citations():
    for crate in crates():
        pattern = os.path.join(ROOT, "crates", crate, "**", "*")
        for path in sorted(glob.glob(pattern, recursive=True)):
            where = os.path.relpath(path, ROOT)
            if not path.endswith((".rt", ".antt")) or where.split(os.sep)[2] == "out":
                continue
            with open(path) as f:
                text = f.read()
            cited = lambda pattern: {found for found in re.findall(pattern, text) if (found if isinstance(found, str) else found[0]) != crate}
            for owner in cited(r"\bRattle\.([a-z]+)\.specs\.Inner\b"):
                faults.append("inner: %s cites specs/Inner of %s" % (where, owner))
            for owner, page in cited(r"\bRattle\.([a-z]+)\.proofs\.([A-Z][A-Za-z0-9]*)"):
                check_page(where, owner, page)
            for owner in crates():
                if owner != crate and has_shut(owner) and "Rattle.%s." % owner in text:
                    if re.search(r"\.inside\b|[{;] *inside =", text):
                        faults.append("inner: %s opens a state of %s that stays shut" % (where, owner))


def check_page(where, owner, page):
    file = os.path.join(ROOT, "crates", owner, "proofs", page + ".antt")
    if os.path.exists(file) and "%s.%s" % (owner, page) not in SHUT_LAWS:
        with open(file) as f:
            if "specs.Inner" in f.read():
                faults.append("inner: %s cites %s of %s, which speaks of specs/Inner" % (where, page, owner))


def check_laws():
    """The laws of a shut state are those that stand in a module over it: `module _ .. (A : AtStart ..) where`."""
    for owner, page in (name.split(".") for name in sorted(SHUT_LAWS)):
        text = read("crates", owner, "proofs", page + ".antt")
        over_state = re.search(r"^    \(A : \w+ [^\n]*where\n(.*?)^\S", text, re.M | re.S)
        laws = re.findall(r"^  pub ([a-z_]+) :", over_state.group(1), re.M) if over_state else []
        if not laws:
            faults.append("inner: %s of %s has no laws over a state" % (page, owner))
        for law in sorted(set(laws) - used_above(owner, page)):
            faults.append("inner: no crate above uses %s.%s of %s" % (page, law, owner))


def used_above(owner, page):
    """What other crates' proofs name of a page of laws, but for what their `use` lines alone name."""
    used = set()
    for path in glob.glob(os.path.join(ROOT, "crates", "*", "proofs", "**", "*.antt"), recursive=True):
        if os.path.relpath(path, ROOT).split(os.sep)[1] == owner:
            continue
        with open(path) as f:
            text = f.read()
        proofs = re.sub(r"^use .*$", "", text, flags=re.M)
        for names in re.findall(r"^use Rattle\.%s\.proofs\.%s\.\{([^}]*)\}" % (owner, page), text, re.M):
            used.update(name for name in names.replace(",", " ").split() if re.search(r"\b%s\b" % re.escape(name), proofs))
    return used


def has_shut(crate):
    """A page of its specs/ has states that stay shut: records whose one field is `inside`."""
    pages = glob.glob(os.path.join(ROOT, "crates", crate, "specs", "*.antt"))
    return any("-- ---- shut" in open(page).read() for page in pages)


check_surface()
check_citations()
check_laws()
for fault in faults:
    print("surface: " + fault)
print("surface: %s" % ("%d faults" % len(faults) if faults else "as docs/SURFACE.md says"))
sys.exit(1 if faults else 0)
