#!/usr/bin/env python3
"""Brings the repository's own definitions and lemmas to snake case.

usage: python3 tools/respell.py [--list]    at the top of the repository, once, after the kit's own port script

A definition `dueOf` becomes `due_of`, a lemma `latency-small` becomes `latency_small`; types, modules and the
names that the check itself makes (goals, steps, invariants, measures) stay. The new names are put into
specs/, proofs/ and the ghost parts of src/, where alone such names stand. With --list it only
prints the names, and those that would meet
another name of the same file.
"""
import glob
import re
import sys

DEF = re.compile(r"^(?:\s+(?=abbrev|unfoldable|pub))?(?:(?:abbrev|unfoldable|pub)\s+)*([^\s:(){}.,;]+)\s*:\s+(\S.*)?$")
ALIAS = re.compile(r" as ([a-z][A-Za-z0-9_'-]*)(?=[,}])")
TOKEN = re.compile(r"[^\s(){}\[\].,;:λ⌜⌝\"'`][^\s(){}\[\].,;:\"`]*")
# fields of records, which are also named after a dot; what else follows a dot is a name that the check made
FIELDS = {"rate-is", "waiting-is", "rate-book", "clock-is", "count-is", "now-is", "oldestGoes"}
# names that would meet a function of src/ in the same file, and what they are called in place of it
OTHER = {
    "servedBy": "served_client",
    "latencyOf": "latency_for",
    "creditAfter": "next_credit",
    "rateOf": "line_rate",
    "reserveFrame": "reserved_frame",
    "reserveCredits": "reserved_credits",
    "reserveRing": "reserved_ring",
    "sameRate": "have_same_rate",
    "bothIdle": "are_idle",
    "inReach": "is_in_reach",
    "clientsOf": "chain_clients",
    "restAfter": "next_rest",
    "restGiven": "rest_read",
    "setUp": "started_with",
}


def files(kind):
    found = []
    for where in kind:
        found += glob.glob(f"crates/*/{where}/**/*.antt", recursive=True)
    return sorted(found)


def sources():
    return files(["specs", "proofs"]) + sorted(glob.glob("crates/*/src/**/*.rt", recursive=True))


def snake(name):
    name = re.sub(r"([a-z0-9])([A-Z])", lambda m: m.group(1) + "_" + m.group(2).lower(), name)
    return name.replace("-", "_")


def own_names():
    names = {}
    for path in sources():
        for line in open(path, encoding="utf-8"):
            for alias in ALIAS.findall(line) if "use Rattle" in line else []:
                if snake(alias) != alias:
                    names[alias] = snake(alias)
            found = DEF.match(line) if path.endswith(".antt") else None
            if not found or line.startswith("use "):
                continue
            name, goal = found.group(1), found.group(2) or ""
            if goal.startswith("goal.") or not name[0].islower():
                continue
            if snake(name) != name:
                names[name] = OTHER.get(name, snake(name))
    return names


def turned(text, names):
    out, last = [], 0
    for found in TOKEN.finditer(text):
        name = found.group(0)
        if name in names and (name in FIELDS or not (found.start() and text[found.start() - 1] == ".")):
            out += [text[last:found.start()], names[name]]
            last = found.end()
    return "".join(out) + text[last:]


def main():
    names = own_names()
    if "--list" in sys.argv:
        backwards = {}
        for old, new in names.items():
            backwards.setdefault(new, []).append(old)
        for new, old in sorted(backwards.items()):
            print(new, "<-", " ".join(old))
        for path in sources():
            tokens = set(re.findall(r"[^\s(){}\[\].,;:\"`]+", open(path, encoding="utf-8").read()))
            for old in sorted(tokens & set(names)):
                if names[old] in tokens:
                    print("meets:", path, old, names[old])
        return
    for path in sources():
        text = open(path, encoding="utf-8").read()
        new = turned(text, names)
        if new != text:
            open(path, "w", encoding="utf-8").write(new)


main()
