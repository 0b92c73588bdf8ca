#!/usr/bin/env python3
"""Lists what eight points of design ask about in crates/*/src, a line for each candidate. A reader judges which are places.

    tools/design_count.py POINT    crate/module: function: what
    tools/design_count.py          how many lines each point has, by what they say first

1 own enums of the shape of Option or Result, flags, numbers for kinds, numbers that say that there is none; 2 twins; 3 loops;
4 equality, order, copying, conversion, printing by hand; 5 parameters that travel together, facts of many contracts;
6 parallel arrays, buffers, lengths beside them; 7 switches; 8 answers of proofs, by form. `2c` looks for twins by contracts.
"""
import collections
import difflib
import glob
import os
import re
import sys

ROOT = os.path.dirname(os.path.dirname(os.path.abspath(__file__)))
FAULT = re.compile(r"Bad|Broken|Large|NoRoom|Differ|GaveUp|Refused|Nowhere|End$|Full|Fault|Error")
SENTINEL = r"\b(?:NEVER|NONE|FULL)\b"
NO_VALUE = re.compile(r"\bor 0\b|\b0 (?:for|where|is no|on a)\b|if there is none|\bif no \w+ has|FULL says|for a row that is not")
WORD = re.compile(r"[A-Za-z_]\w*|\d+|<<|>>|[<>=!]=|&&|\|\||=>|->|::|[^\s\w]")

Function = collections.namedtuple("Function", "crate module name params result clauses body comment")


def blank(t):
    """Without comments, and without what strings and characters hold; places are kept."""
    keep = lambda m: re.sub(r"[^\n]", " ", m.group(0))  # noqa: E731
    return re.sub(r'//[^\n]*|b?"(?:\\.|[^"\\])*"|b?\'(?:\\.|[^\'\\])\'', keep, t)


def closing(t, i):
    """Behind the bracket that closes the one at i."""
    pairs, deep = {"{": "}", "(": ")", "[": "]"}, 0
    a, b = t[i], pairs[t[i]]
    for k in range(i, len(t)):
        deep += (t[k] == a) - (t[k] == b)
        if not deep:
            return k + 1
    return len(t)


def parts(t):
    """What stands between the commas of the outermost level."""
    found, deep, one = [], 0, ""
    for c in t.replace("->", "→") + ",":
        deep += (c in "([{<") - (c in ")]}>")
        if c == "," and deep == 0:
            found, one = found + [one.strip().replace("→", "->")] if one.strip() else found, ""
        else:
            one += c
    return found


def squeeze(t):
    return " ".join(t.split())


def comment_above(raw, i):
    lines = raw[:i].split("\n")[:-1]
    found = []
    while lines and re.match(r"\s*(//|#\[)", lines[-1]):
        line = lines.pop().strip()
        found += [line[2:].strip()] if line.startswith("//") else []
    return " ".join(reversed(found))


def head(t, i):
    """From behind a function's name: where its parameters stand, and its body; each as a pair of places."""
    deep = 0
    while t[i] != "(" or deep:
        deep += (t[i] == "<") - (t[i] == ">" and t[i - 1] != "-")
        i += 1
    params = (i + 1, closing(t, i) - 1)
    i = params[1] + 1
    start = i
    while t[i] not in "{;":
        if re.match(r"(requires|ensures)\b", t[i:]) and not (t[i - 1].isalnum() or t[i - 1] == "_"):
            i = closing(t, t.index("{", i))
        elif t[i] in "([":
            i = closing(t, i)
        else:
            i += 1
    return params, (start, i), (i, closing(t, i) if t[i] == "{" else i)


def read():
    functions, types, consts = [], [], []
    for path in sorted(glob.glob(os.path.join(ROOT, "crates", "*", "src", "**", "*.rt"), recursive=True)):
        crate = os.path.relpath(path, os.path.join(ROOT, "crates")).split(os.sep)[0]
        module = os.path.relpath(path, os.path.join(ROOT, "crates", crate, "src"))[:-3]
        with open(path, encoding="utf-8") as f:
            raw = f.read()
        t = blank(raw)
        around = []
        for m in re.finditer(r"\b(?:(impl|trait)\b([^;{]*)\{|(enum|struct)\s+(\w+)[^;{(]*([{(;])|(?<![<,] )(?<!<)const\s+([A-Z]\w*)\s*:\s*([^=]*)=|fn\s+(\w+))", t):
            while around and around[-1][0] <= m.start():
                around.pop()
            if m.group(1):
                around.append((closing(t, m.end() - 1), re.sub(r"^<[^>]*>|\s+where.*", "", squeeze(m.group(2))).strip()))
            elif m.group(3):
                end = closing(t, m.end() - 1) if m.group(5) != ";" else m.end()
                fields = parts(re.sub(r"#\[[^\]]*\]", "", t[m.end() : end - 1]))
                types.append((crate, module, m.group(3), m.group(4), fields))
            elif m.group(6):
                value = t[m.end() : t.index(";", m.end())]
                if m.group(7).startswith("["):
                    value = t[m.end() : t.index("]", m.end()) + 1]
                consts.append((crate, module, m.group(6), squeeze(m.group(7)), squeeze(value)))
            elif m.group(8):
                params, clauses, body = head(t, m.end())
                if t[body[0]] != "{":
                    continue
                given = [re.sub(r"^mut\s+", "", squeeze(p)).partition(":") for p in parts(t[params[0] : params[1]])]
                text = raw[clauses[0] : clauses[1]]
                result = re.match(r"\s*->\s*(.*?)\s*(?=\brequires\b|\bensures\b|\bwhere\b|$)", text, re.S)
                name = "%s::%s" % (around[-1][1], m.group(8)) if around else m.group(8)
                given = [(a.strip(), b.strip()) for a, _, b in given]
                above = comment_above(raw, t.rfind("\n", 0, m.start()) + 1)
                result = squeeze(result.group(1)) if result else ""
                functions.append(Function(crate, module, name, given, result, text, t[body[0] + 1 : body[1] - 1], above))
    return functions, types, consts


def line(x, name, what):
    return "%s/%s: %s: %s" % (x[0], x[1], name, what)


# ---- 1: own enums of the shape of Option or Result, flags with a value beside, numbers for kinds


def shape(enum, variants):
    """The shape of an enum, by its variants' names: those that say that something is wrong or absent, and the others."""
    names = [re.match(r"\w+", v).group(0) for v in variants]
    faults = [v for v, n in zip(variants, names) if FAULT.search(n)]
    if len(faults) == len(variants) or re.search(r"Refusal|Fault|Error", enum):
        return "an error enum"
    if not faults:
        return "cases, each with its value" if all(re.search(r"[({]", v) for v in variants) else "kinds"
    if len(faults) == 1 and not re.search(r"[({]", faults[0]):
        return "Option"
    return "Result"


def point1(functions, types, consts):
    for c, m, kind, name, fields in types:
        if kind == "enum":
            yield line((c, m), name, "enum: %s: %s" % (shape(name, fields), ", ".join(squeeze(f) for f in fields)))
        for f in fields:
            if kind == "struct" and re.search(r":\s*bool$", f):
                yield line((c, m), name, "flag: field `%s`" % f.replace("pub ", ""))
            for n in re.findall(r"\bnumber:\s*u\d+", f):
                yield line((c, m), name, "number: field `%s`" % n)
    for c, m, name, kind, value in consts:
        if kind == "u32":
            yield line((c, m), name, "number: constant %s" % value)
    for f in functions:
        flags = [n for n, k in f.params if k == "bool"]
        slices = [n for n, k in f.params if "mut [" in k]
        for n in flags:
            yield line(f, f.name, "flag: `%s: bool`%s" % (n, " beside %s" % ", ".join(slices) if slices else ""))
        for n, k in f.params:
            if n == "number":
                yield line(f, f.name, "number: `%s: %s`" % (n, k))
        for n in re.findall(r"\bnumber == \d+", f.body):
            yield line(f, f.name, "number: test `%s`" % n)
        for s in sorted(set(re.findall(r"(?:return |[<=!]=? |\(|, |: |= )(NEVER|NONE|FULL)\b|\b(NEVER|NONE|FULL)(?: as \w+)?(?= [<=!])", f.body))):
            yield line(f, f.name, "sentinel: %s" % "".join(s))
        if NO_VALUE.search(f.comment) and re.match(r"[u(]", f.result):
            yield line(f, f.name, "sentinel: `%s` for none: %s" % (f.result, NO_VALUE.search(f.comment).group(0)))
        arms = re.findall(r"(\w+)::(\w+)(?:\([^)]*\)|\s*\{[^}]*\})?\s*=>\s*\{?\s*(?:return\s+)?(\w+)::\2\b", f.body)
        arms += [(a, v, b) for a, v, b in re.findall(r"let (\w+)::(\w+)[^=]*= \w+ else \{\s*return (\w+)::", f.body)]
        for a, v, b in arms:
            yield line(f, f.name, "passed on: %s::%s to %s" % (a, v, b))


# ---- 2: twins


def tokens(f, names):
    """A function's parameters and body; with names, each name by its first place, else only by its kind."""
    seen, found = {}, []
    text = " , ".join(k for _, k in f.params) + " -> " + f.result + " { " + f.body
    for w in WORD.findall(text):
        if re.match(r"\d", w):
            found.append("0")
        elif re.match(r"(u|i)(8|16|32|64|size)$", w):
            found.append("T")
        elif re.match(r"[A-Za-z_]", w):
            if w in ("if", "else", "while", "for", "loop", "match", "return", "let", "mut", "as", "in", "continue", "true", "false", "bool"):
                found.append("b" if w in ("true", "false") else w)
            else:
                found.append("n%d" % seen.setdefault(w, len(seen)) if names else "n")
        else:
            found.append(w)
    return found


def full(f):
    return "%s/%s::%s" % (f.crate, f.module, f.name)


def groups(pairs):
    """The groups that pairs make, each sorted."""
    of = {}
    for a, b in pairs:
        g = of.get(a, {a}) | of.get(b, {b})
        for x in g:
            of[x] = g
    return sorted({tuple(sorted(g)) for g in of.values()})


def point2(functions, types, consts):
    thin = [f for f in functions if len(tokens(f, True)) >= 14 and f.crate != "engine"]
    forms = collections.defaultdict(list)
    for f in thin:
        forms[" ".join(tokens(f, True))].append(full(f))
    same = {tuple(sorted(v)) for v in forms.values() if len(v) > 1}
    for g in sorted(same):
        yield "same form: " + ", ".join(g)
    near = []
    flat = [(f, tokens(f, False)) for f in thin]
    for i, (f, a) in enumerate(flat):
        for g, b in flat[i + 1 :]:
            if min(len(a), len(b)) < 30 or max(len(a), len(b)) > 1.3 * min(len(a), len(b)):
                continue
            s = difflib.SequenceMatcher(None, a, b, autojunk=False)
            if s.real_quick_ratio() > 0.87 and s.quick_ratio() > 0.87 and s.ratio() > 0.87:
                near.append((full(f), full(g)))
    for g in groups(near):
        if g not in same:
            yield "near form: " + ", ".join(g)
    structs = [(c, m, n, {squeeze(f).replace("pub ", "") for f in fields}) for c, m, k, n, fields in types if k == "struct"]
    for i, a in enumerate(structs):
        for b in structs:
            if a != b and a[3] <= b[3] and len(a[3]) > 1:
                yield "type: %s/%s::%s has fewer fields of %s/%s::%s" % (*a[:3], *b[:3])
    shapes = collections.defaultdict(list)
    for c, m, k, n, fields in types:
        if k == "enum" and len(fields) > 1 and shape(n, fields) in ("Option", "Result"):
            shapes[tuple(sorted(re.sub(r"^\w+", "", squeeze(f)) for f in fields))].append("%s/%s::%s" % (c, m, n))
    for s, g in sorted(shapes.items()):
        if len(g) > 1:
            yield "type: one payload each: " + ", ".join(g)
    values = collections.defaultdict(list)
    for c, m, n, k, v in consts:
        if re.match(r"\d{3,}$", v):
            values[v].append("%s/%s::%s" % (c, m, n))
    for v, g in sorted(values.items()):
        if len(g) > 1:
            yield "constant: %s: %s" % (v, ", ".join(g))


def point2c(functions, types, consts):
    """The other way: functions of one signature up to types whose contracts differ in at most two words."""
    bare = lambda f: re.sub(r"\.(?:old|now|new|entry)\b", "", f.clauses)  # noqa: E731
    words = [(f, re.findall(r"[\w']+|[^\s\w]", bare(f))) for f in functions if f.crate != "engine"]
    plain = lambda f: [re.sub(r"\b(?:u8|u16|u32|u64|usize|[A-Z]\w*)\b", "T", k) for _, k in f.params]  # noqa: E731
    near = []
    for i, (f, a) in enumerate(words):
        for g, b in words[i + 1 :]:
            if plain(f) == plain(g) and len(a) == len(b) > 10:
                names = {x for x, _ in f.params + g.params} | {"u8", "u16", "u32", "usize"}
                other = [(x, y) for x, y in zip(a, b) if x != y and not (x in names and y in names)]
                if len(other) <= 2:
                    near.append((full(f), full(g)))
    for g in groups(near):
        yield "near contract: " + ", ".join(g)


# ---- 3: loops


def loops(f):
    """Each loop of a function: its word, its test and its body."""
    for m in re.finditer(r"\b(while|loop|for)\b([^{;]*)\{", f.body):
        yield m.group(1), squeeze(m.group(2)), f.body[m.end() : closing(f.body, m.end() - 1) - 1]


def counted(test, body):
    """The variable of the test that goes on by one each time, where there is one."""
    for v in re.findall(r"[a-z_]\w*", test):
        step = r"\b%s (?:[+-]= 1|= %s [+-] 1);" % (v, v)
        if re.search(step, body):
            return v
        for w in re.findall(r"let (\w+) = %s [+-] 1;" % v, body):
            if re.search(r"\b%s = %s;" % (v, w), body):
                return v
        for w in re.findall(r"let (\w+) = %s;" % v, body):
            if re.search(r"\b%s = %s [+-] 1;" % (v, w), body):
                return v
    return None


def point3(functions, types, consts):
    for f in functions:
        for word, test, body in loops(f):
            if word == "for":
                yield line(f, f.name, "for: %s" % test)
                continue
            v = counted(test, body)
            yield line(f, f.name, "%s: %s" % ("counts" if v else "other", ("%s %s" % (word, test)).strip()))


# ---- 4: equality, order, copying, conversion, printing by hand


FIELDS = r"(?:let \w+ = \w+\(\w+\); |let \w+ = [\w.]+; )*[A-Z]\w+(?:::\w+)? \{ (?:\w+(?:: [\w.]+(?:\(\w+\))?(?: as \w+)?)?,? ?)+\}"


def point4(functions, types, consts):
    for f in functions:
        body = squeeze(f.body)
        m = re.match(r"match (\w+) \{(.*)\}$", body)
        if m and m.group(1) in [n for n, _ in f.params]:
            kind = dict(f.params)[m.group(1)].split("<")[0].lstrip("&")
            if f.result == "bool":
                yield line(f, f.name, "equality: which case of %s" % kind)
            else:
                yield line(f, f.name, "conversion: %s to %s" % (kind, f.result))
        if f.result and re.fullmatch(r"if \w+ <=? \w+ \{ \w+ \} else \{ \w+ \}", body) or f.name in ("least",):
            yield line(f, f.name, "order: %s" % body[:60])
        if re.fullmatch(r"\w+ as \w+", body):
            yield line(f, f.name, "conversion: `%s`" % body)
        if re.fullmatch(FIELDS, body) and len(f.params) == 1:
            yield line(f, f.name, "conversion: %s to %s, field by field" % (f.params[0][1], f.result))
        for m in re.finditer(r"\b([A-Z]\w+(?:::\w+)?)\s*\{([^{}]*)\}", f.body):
            copied = collections.Counter(re.findall(r"\w+: (\w+)\.\w+(?=,|$)", ", ".join(parts(m.group(2)))))
            for n, many in copied.items():
                if many >= 2:
                    yield line(f, f.name, "copying: %d fields of %s into %s" % (many, n, m.group(1)))
        if re.match(r"(put|write|print)_", f.name) and any(n in ("out", "output", "text") and "mut" in k for n, k in f.params):
            yield line(f, f.name, "printing")


# ---- 5: parameters that travel together, facts in three or more contracts


def point5(functions, types, consts):
    bare = lambda p: (p[0], p[1].replace("&", "").replace("mut ", "").strip())  # noqa: E731
    sets = [frozenset(map(bare, f.params)) for f in functions]
    closed, work = set(), set(sets)
    while work:
        one = work.pop()
        if one in closed or len(one) < 2:
            continue
        closed.add(one)
        work |= {one & s for s in set(sets)} - closed
    many = {c: sum(c <= s for s in sets) for c in closed}
    # of groups that differ by a parameter alone, those that are worth a struct: at least three functions
    for c, n in sorted(many.items(), key=lambda x: (-x[1] * (len(x[0]) - 1), sorted(x[0]))):
        if n >= 3:
            order = next([p for p in f.params if bare(p) in c] for f, s in zip(functions, sets) if c <= s)
            yield "together: %d functions: %s" % (n, ", ".join(p[0] for p in order))
    facts, heads = collections.defaultdict(set), collections.defaultdict(set)
    for f in functions:
        for word, text in re.findall(r"\b(requires|ensures)\b[^{]*\{(.*?)\}\s*(?=requires|ensures|$)", f.clauses, re.S):
            text = re.sub(r"\blet (?:[^;]*?) in\b", "", squeeze(text))
            for fact in text.split(" × "):
                fact = re.sub(r"\.(?:old|now|new|entry)\b", "", fact.strip(" ()"))
                facts[word, fact].add(full(f))
                if re.match(r"[A-Z]", fact):
                    heads[word, fact.split()[0]].add(full(f))
    for (word, head_), g in sorted(heads.items(), key=lambda x: -len(x[1])):
        if len(g) >= 3:
            yield "fact: %d contracts: %s %s" % (len(g), word, head_)
    for (word, fact), g in sorted(facts.items(), key=lambda x: -len(x[1])):
        if len(g) >= 3 and not re.match(r"[A-Z]", fact):
            yield "fact: %d contracts: %s %s" % (len(g), word, fact)


# ---- 6: buffers with a length beside, parallel arrays, sorted lists searched by hand, arenas


def point6(functions, types, consts):
    for f in functions:
        at = collections.defaultdict(list)
        for a, i in re.findall(r"\b(\w+)\[([^\[\];.]+)\]", f.body) + re.findall(r"\b(?:entry|put)\((\w+), ([^,()]+)", f.body):
            if a not in at[i] and re.match(r"[a-z]", a):
                at[i].append(a)
        for i, g in at.items():
            if len(g) > 1:
                yield line(f, f.name, "parallel: %s at `%s`" % (", ".join(g), i))
        for i in re.findall(r"let mut (\w+ = \[[^\]]*\])", f.body):
            yield line(f, f.name, "buffer: %s" % i)
        if re.search(r"while (\w+) < (\w+) \{\s*let \w+ = \1 \+ \(\2 - \1\) / 2", f.body):
            yield line(f, f.name, "search by halves")
        pairs_ = [(n, k) for n, k in f.params if k == "usize" and n in ("count", "read", "tail", "upto", "places", "n", "raised", "waiting")]
        held = [n for n, k in f.params if "[" in k]
        for n, _ in pairs_:
            if held:
                yield line(f, f.name, "length: `%s` beside %s" % (n, ", ".join(held)))
    for c, m, k, n, fields in types:
        if k == "struct" and sum(bool(re.search(r"\b(head|tail|raised|end|lo|from|walked|row): usize", f)) for f in fields) >= 2:
            yield line((c, m), n, "places of a lent array: %s" % ", ".join(squeeze(f).replace("pub ", "") for f in fields))


# ---- 7: switches


def point7(functions, types, consts):
    flags = {n for _, _, k, _, fields in types if k == "struct" for n in re.findall(r"\b(\w+): bool", " ".join(fields))}
    for f in functions:
        own = [n for n, k in f.params if k == "bool"] + [n for n in flags if re.search(r"\.%s\b" % n, f.body)]
        for n in own:
            if re.search(r"\bif !?(?:\w+\.)?%s\b" % n, f.body):
                yield line(f, f.name, "tests: `%s`" % n)
            elif re.search(r"[(,]\s*(?:\w+\.)?%s\s*[,)]" % n, f.body):
                yield line(f, f.name, "hands on: `%s`" % n)
        for b in re.findall(r"(\w+)\((?:[^()]*,)?\s*(true|false)\s*[,)]", f.body):
            yield line(f, f.name, "calls: %s with %s" % b)
        for _, k in f.params:
            if re.search(r"\bfn\(", k):
                yield line(f, f.name, "takes a function by its address: `%s`" % k)


# ---- 8: answers


FORMS = (
    ("`search rules`", r"search \(?rules\)?"),
    ("`omega arith`", r"omega \(?arith\)?"),
    ("`refl`", r"refl"),
    ("`omega` of facts", r"omega \(.*\)"),
    ("a fact at hand", r"c(?:\.[\w-]+)+(?: (?:_|refl|c\.[\w.-]+))*"),
    ("a record", r"record\b.*"),
    ("`rw` or `simp`", r"(?:rw|simp)\b.*"),
    ("a lemma of facts at hand", r"[\w-]+(?: (?:_|c\.[\w.-]+|refl))*"),
    ("a lemma of longer terms", r"[\w-]+(?:\.[\w-]+)* .*"),
)


def answers():
    for path in sorted(glob.glob(os.path.join(ROOT, "crates", "*", "proofs", "**", "Answers.antt"), recursive=True)):
        with open(path, encoding="utf-8") as f:
            text = f.read()
        where = os.path.relpath(path, os.path.join(ROOT, "crates")).replace("/proofs/", "/").replace("/Answers.antt", "")
        for m in re.finditer(r"^(?:abbrev )?pub (\S+) : goal\.\1\n(?:unfolding[^\n]*\n)?\1((?: [^\n=]*)?) =\s*(.*?)(?=^\S|\Z)", text, re.M | re.S):
            body = squeeze(re.sub(r"--[^\n]*", "", m.group(3)))
            form = next((n for n, p in FORMS if re.fullmatch(p, body)), "other")
            yield where, m.group(1), form, body


def point8(functions, types, consts):
    bodies = collections.defaultdict(list)
    for where, name, form, body in answers():
        crate, _, rest = where.partition("/")
        yield "%s/%s: %s: %s" % (crate, rest, name, form)
        bodies[body].append("%s %s" % (where, name))
    for body, g in sorted(bodies.items(), key=lambda x: -len(x[1])):
        files = {w.split()[0] for w in g}
        if len(files) >= 3:
            yield "repeated: %d answers in %d files: %s" % (len(g), len(files), body[:120])


POINTS = {"1": point1, "2": point2, "2c": point2c, "3": point3, "4": point4, "5": point5, "6": point6, "7": point7, "8": point8}


def main(argv):
    found = read()
    if argv and argv[0] in POINTS:
        print("\n".join(POINTS[argv[0]](*found)))
        return 0
    if argv:
        print(__doc__)
        return 2
    for n, point in POINTS.items():
        lines = list(point(*found))
        first = collections.Counter(re.match(r"(?:\S+/\S+: \S+: )?([^:]+)", s).group(1).replace("`", "") for s in lines)
        print("%s: %d: %s" % (n, len(lines), ", ".join("%d %s" % (many, word) for word, many in first.most_common(12))))
    return 0


if __name__ == "__main__":
    sys.exit(main(sys.argv[1:]))
