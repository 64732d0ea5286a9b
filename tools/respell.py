#!/usr/bin/env python3
"""Brings the repository's own definitions, lemmas, record fields and constructors to snake case.

Run once at the top of a checkout, after the toolchain's port.py. Names of types, relations and modules keep their
capitals; functions of src/, exported names, strings, inputs and outputs are left alone, and so are the names that the
checker makes for a function's goals. It prints names that would fall together, and then changes nothing.
"""
import collections
import os
import re
import sys

WORD = re.compile(r"[A-Za-z_][\w]*(?:-[\w]+)*'*")
HEAD = re.compile(r"^(\s*)((?:pub |abbrev |unfoldable |private |opaque )*)([A-Za-z_][\w'-]*(?: [A-Za-z_][\w'-]*)*) : ")
# goals that the checker names: a file beside a function answers them under these names
GOAL = re.compile(r"^(returns|invariant|decreases|bounds|requires|calls|drop|reads|loop|init|step)\b")
# fields of a struct of src/ beside a fact's fields of the same names
FIELDS = {"issued_at", "age_add", "early_data_limit"}
# names of lemmas that are also names of functions: in these files alone
HERE = {
    "fields_fit": ("fields_fit_is", "crates/session/proofs/Fitting.antt"),
    "same_bytes": ("same_bytes_is", "crates/redeeming/proofs/Checks.antt"),
}
# names that would meet another of the same spelling, and what they are called instead
APART = {
    "covered-at": "covered_at_is",
    "free-count": "free_count_is",
    "heading-in": "heading_in_is",
    "is-node": "node_of_under",
    "is-under": "under_of_node",
    "issue-bar": "issue_bar_is",
    "key-from": "key_from_is",
    "key-of": "key_of_is",
    "laid_out": "laid_out_is",
    "last-slot": "last_slot_cases",
    "name_in": "name_in_is",
    "number-in": "number_in_is",
    "on-left": "replaced_on_left",
    "on-right": "replaced_on_right",
    "redeem-bar": "redeem_bar_is",
    "refuses-reading": "reading_refused",
    "refuses-writing": "writing_refused",
    "sealed-in": "sealed_in_is",
    "slots-in": "slots_within",
    "start-table": "start_table_is",
    "suite-number": "suite_number_back",
    "value-at": "value_at_is",
}


def snake(name):
    name = name.replace("-", "_")
    name = re.sub(r"([a-z0-9])([A-Z])", r"\1_\2", name)
    return re.sub(r"__+", "_", name).lower()


def files(ends):
    for folder, below, names in os.walk("crates"):
        below[:] = [d for d in below if d not in ("out", "target")]
        for name in sorted(names):
            if name.endswith(ends):
                yield os.path.join(folder, name)


def beside_a_function(path):
    return os.path.basename(path) in ("Answers.antt", "Invariants.antt", "Choices.antt", "Proof.antt")


def declared():
    found = collections.defaultdict(set)
    for path in files(".antt"):
        text = open(path).read()
        for line in text.split("\n"):
            m = HEAD.match(line)
            if not m:
                continue
            for name in m.group(3).split():
                made = beside_a_function(path) and (GOAL.match(name) or "goal." + name in text or "goals." + name in text)
                if not made:
                    found[name].add(path)
    return found


def fields():
    """the record fields that the repository declares"""
    found = set()
    for path in files(".antt"):
        inside = False
        for line in open(path).read().split("\n"):
            if re.match(r"^\s*(pub )?record .* where$", line):
                inside = True
            elif line.strip() and not line.startswith(" "):
                inside = False
            m = HEAD.match(line)
            if inside and m and m.group(1):
                found.update(m.group(3).split())
    return found


def table(found):
    names = {}
    for name in found:
        lemma = "-" in name
        if name in APART or lemma or (name[0].islower() and re.search("[A-Z]", name)):
            names[name] = APART.get(name, snake(name))
    return names


def foreign(text):
    """the words that a file imports from the toolchain's libraries"""
    words = set()
    for m in re.finditer(r"use ([\w.:·-]+?)(?:\.|::)\{([^}]*)\}", text):
        root = m.group(1).replace("::", ".").split(".")
        if root[0] == "Rattle" and len(root) > 1 and os.path.isdir(os.path.join("crates", root[1])):
            continue
        if root[0] == "crate":
            continue
        words.update(w.split(" as ")[-1].strip() for w in m.group(2).split(","))
    return words


def code_of(path, text):
    """splits a source file into pieces, of which the odd ones are strings or comments"""
    return re.split(r"(\"(?:[^\"\\]|\\.)*\"|//[^\n]*)", text)


def turn(text, names, skip, hyphens=True, own=None):
    """own: the fields that may be renamed behind a dot; None for all"""

    def one(m):
        w = m.group(0)
        if w in skip or (own is not None and w not in own and "-" in w and text[m.start() - 1 : m.start()] == "."):
            return w
        if w in names and (hyphens or "-" not in w):
            return names[w]
        base = w.rstrip("'")
        if base in names and w not in names and base not in skip and (hyphens or "-" not in base):
            return names[base] + w[len(base):]
        return w

    return WORD.sub(one, text)


def main():
    found = declared()
    names = table(found)
    changes, clashes = {}, []
    everywhere, own = names, fields()
    for path in files((".antt", ".rt", ".edit")):
        text = open(path).read()
        skip = foreign(text)
        names = dict(everywhere)
        names.update((old, new) for old, (new, where) in HERE.items() if where == path)
        if path.endswith(".rt"):
            pieces = code_of(path, text)
            for i in range(0, len(pieces), 2):
                lemmas = dict(names, **{old: new for old, (new, where) in HERE.items()})
                pieces[i] = "\n".join(turn(l, lemmas if "using(" in l else names, skip) for l in pieces[i].split("\n"))
            for i in range(1, len(pieces), 2):
                pieces[i] = turn(pieces[i], names, skip, False) if pieces[i].startswith("//") else pieces[i]
            new = "".join(pieces)
        else:
            new = turn(text, names, skip, True, own if beside_a_function(path) else None)
        if new != text:
            had, has = set(WORD.findall(text)), set(WORD.findall(new))
            # clauses and goals keep functions and definitions apart, lemma files do not
            apart = path.endswith((".rt", ".edit")) or beside_a_function(path)
            for old in had:
                if old in names and names[old] in had - set(names) - FIELDS and old not in skip and not apart:
                    clashes.append((path, old, names[old]))
            changes[path] = new
    names = everywhere
    for folder in ("docs", "."):
        for name in sorted(os.listdir(folder)):
            path = os.path.join(folder, name)
            if name.endswith(".md") and os.path.isfile(path):
                text = open(path).read()
                new = re.sub(r"`[^`\n]*`", lambda m: turn(m.group(0), names, set()), text)
                if new != text:
                    changes[path] = new
    fell = collections.defaultdict(set)
    for old, new in names.items():
        fell[new].add(old)
    for new, olds in sorted(fell.items()):
        if len(olds) > 1:
            print("two names for", new, sorted(olds))
    for path, old, new in clashes:
        print("falls together:", path, old, new)
    if "--force" not in sys.argv and (clashes or any(len(o) > 1 for o in fell.values())):
        return 1
    for path, new in changes.items():
        open(path, "w").write(new)
    print(len(names), "names,", len(changes), "files")
    return 0


if __name__ == "__main__":
    sys.exit(main())
