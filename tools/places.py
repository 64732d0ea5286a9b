"""Lists the places in src/ that a pass over the design looks at, a section for each point. Each is a candidate: which of them are
places that change, and which stay and why, docs/DESIGN-PASS.md says.

    python3 tools/places.py [POINT]     at the top of the repository; with a point's number only that section, else the counts of all
"""
import collections
import difflib
import glob
import itertools
import re
import sys


def sources():
    for path in sorted(glob.glob("crates/*/src/*.rt")):
        with open(path) as f:
            yield path, f.read().split("\n")


def lines(pattern):
    rule = re.compile(pattern)
    for path, text in sources():
        for number, line in enumerate(text, 1):
            if not line.lstrip().startswith("//") and rule.search(line):
                yield path, number, line.strip()


def functions():
    """Each function with its file, line, name, parameters' names, requires clauses and body."""
    head = re.compile(r"^\s*(?:pub(?:\(\w+\))? )?(?:extern \"C\" )?fn (\w+)")
    for path, text in sources():
        at = 0
        while at < len(text):
            found = head.match(text[at])
            if not found:
                at += 1
                continue
            start, deep, body = at, 0, []
            opened = False
            while at < len(text):
                body.append(text[at])
                if re.match(r"^\s*\{", text[at]) or text[at].rstrip().endswith("{"):
                    opened = True
                if text[at].rstrip().endswith(";") and not opened:
                    break
                indent = len(text[start]) - len(text[start].lstrip())
                if opened and re.match(r"^ {%d}\}" % indent, text[at]) or text[at].rstrip().endswith("{}"):
                    break
                at += 1
            at += 1
            whole = "\n".join(body)
            signature = whole.split("\n    ensures")[0]
            params = re.findall(r"(\w+): ", re.split(r"\) *->|\n\)|\) *\{|\)$", signature, maxsplit=1)[0])
            requires = re.findall(r"requires (?:\w+ )?\{ (.*) \}\s*$", whole, re.M)
            yield path, start + 1, found.group(1), params, requires, whole


def point1():
    yield from (("own enum",) + x for x in lines(r"^\s*(pub(\(\w+\))? )?enum \w+"))
    yield from (("flag in a struct",) + x for x in lines(r"^\s+(pub(\(\w+\))? )?\w+: bool,$"))
    yield from (("number for a kind",) + x for x in lines(r"\b(generator|sealer|flag|number): u8\b|-> u8$|&'static str, .*u8, u32\)"))
    yield from (("Option or Result handed on by hand",) + x for x in lines(
        r"(Some|Ok|Err)\(\w+\) => (Some|Ok|Err)\(|None => (None|Err)|Err\(_\) =>|if let Err\(_\)|None => Halt|return Ok\(\(\)\);$"))
    yield from (("sentinel",) + x for x in lines(r"unwrap_or\(0\)|unwrap_or\(\(0, 0\)\)|map_or\(0,|return 0;|Err\(_\) => 0"))


def point2():
    shapes = collections.defaultdict(list)
    for path, number, name, _, _, whole in functions():
        body = re.sub(r"//.*", "", whole.split("\n", 1)[-1] if "\n" in whole else whole)
        body = re.sub(r"\b(ensures|requires)\b.*", "", body)
        shape = re.sub(r"\b\d[\d_]*\b|\bu\d+\b|\busize\b|\b[A-Z]\w*\b|\b\w+\d+\b", "_", re.sub(r"\s+", " ", body))
        if len(shape) > 45:
            shapes[shape].append((path, number, name))
    for group in shapes.values():
        if len(group) > 1:
            yield from (("same but for types, sizes and constants",) + x for x in group)
    names = collections.defaultdict(list)
    for path, number, name, _, _, whole in functions():
        names[name].append((path, number, re.sub(r"\s+", " ", re.sub(r"//.*", "", whole))))
    for name, found in sorted(names.items()):
        alike = set()
        for (p, i, a), (q, j, b) in itertools.combinations(found, 2):
            if p.split("/")[1] != q.split("/")[1] and len(a) > 110 and difflib.SequenceMatcher(None, a, b).ratio() > 0.75:
                alike |= {(p, i, name), (q, j, name)}
        yield from (("same name and nearly the same text in another crate",) + x for x in sorted(alike))


def point3():
    yield from (("while",) + x for x in lines(r"^\s*while "))
    yield from (("for over numbers",) + x for x in lines(r"^\s*for \w+ in .*\.\."))


def point4():
    yield from (("conversion",) + x for x in lines(r"fn (number|from_number|refusal|layer_of|halted|place|word)\("))
    yield from (("copy",) + x for x in lines(r"copy_from_slice"))
    yield from (("equality, field by field",) + x for x in lines(r"\.\w+ [!=]= \w+\.\w+ (\|\||&&)"))
    yield from (("printing",) + x for x in lines(r"impl(<.*>)? fmt::Display|-> &'static str"))


def point5():
    facts = collections.defaultdict(set)
    taken = []
    for path, number, name, params, requires, _ in functions():
        for clause in requires:
            for fact in re.split(r" × ", clause.replace("(", "").replace(")", "")):
                facts[(path.split("/")[1], fact)].add((path, number, name))
        known = {"d": "device", "g": "generator", "s": "sealer"}
        names = {known.get(p, p) for p in params if not re.fullmatch("[A-Z]", p)}
        taken.append((frozenset(names) - {"self", "rt", "show", "report", "desk", "watch", "f"}, (path, number, name)))
    for (_, fact), found in sorted(facts.items()):
        if len(found) >= 3:
            yield from (("fact: " + fact,) + x for x in sorted(found))
    groups = {a & b for (a, _), (b, _) in itertools.combinations(taken, 2) if len(a & b) >= 3}
    of = {g: {x for params, x in taken if g <= params} for g in groups}
    often = [g for g in groups if len(of[g]) >= 3 and not any(g < h and len(of[h]) >= 3 for h in groups)]
    for group in sorted(often, key=lambda g: sorted(g)):
        yield from ((f"together: {', '.join(sorted(group))}",) + x for x in sorted(of[group]))


def point6():
    yield from (("length beside a buffer",) + x for x in lines(r"^\s+(pub(\(\w+\))? )?(\w+_)?length: (usize|u8),"))
    yield from (("values in flat bytes, nodes and values in parallel",) + x for x in lines(r"\[u8; 768\]|&mut \[Node; ROW\]|32 \* \w+"))
    yield from (("parallel arrays in a struct",) + x for x in lines(r"^\s+(pub(\(\w+\))? )?\w+: \[\w+; (NUMBERS|7)\],"))


def point7():
    yield from (("switch on a step",) + x for x in lines(r"match .*\b(deed|medium|event|call|bed|edit)\b.* \{"))


POINTS = [point1, point2, point3, point4, point5, point6, point7]

if len(sys.argv) > 1:
    for kind, path, number, what in POINTS[int(sys.argv[1]) - 1]():
        print(f"{kind}: {path}:{number}: {what}")
else:
    for number, point in enumerate(POINTS, 1):
        kinds = collections.Counter(x[0].split(":")[0] for x in point())
        print(f"point {number}: {sum(kinds.values())}", ", ".join(f"{kind} {n}" for kind, n in kinds.items()), sep="; ")
