#!/usr/bin/env python3
"""Respells the repository's own definitions, facts and lemmas as today's Rattle spells them.

Run once, at the top of the repository, right after Rattle's own port script:

    python3 tools/respell.py

Types and facts are written in upper camel case, everything else in snake case. A lemma keeps the dash
where it joins the names of two definitions, as length-octets does. A lemma that would have the name of
a function gets _lem at its end. Names of functions in src/, strings, inputs and outputs stay.
"""
import collections
import glob
import os
import re

HEAD = re.compile(r"^(\s*)((?:(?:pub|abbrev|unfoldable|data|record|mutual)\s+)*)([^\s:(){},;\[\]]+)"
                  r"((?:\s*(?:\([^()]*\)|\{[^{}]*\}))*)\s*:(?:\s|$)")
TOKEN = re.compile(r"[^\W\d][\w'\-]*")
NO_NAMES = {"module", "let", "in", "where", "open", "elim", "rw"}
# names of std that a lemma's name may join
STD = {"length", "append", "take", "drop", "map", "filter", "fold", "get_or", "set", "sum", "min", "max",
       "replicate", "reverse", "concat"}
# spelled by hand: a lemma named as its function; a lemma that would be std's word; names that only a binder
# or an import brings in
BY_HAND = {
    "converges-by-hops": "converges_by_hops_lem",
    "nothing-waits": "nothing_waits_lem",
    "database-laws": "database_laws_lem",
    "databases-rise": "databases_rise_lem",
    "bit-or": "bit-or",
    "Unknown-kind": "UnknownKind",
    "Of-put": "OfPut",
    "on-put": "on_put", "on-take": "on_take", "on-P": "on_P", "on-Q": "on_Q",
    "new-patterns": "new_patterns", "new-accepted": "new_accepted",
    "zero-n": "zero_n", "zero-g": "zero_g",
}
# prose in comments, not a name
PROSE = {"point-to-point"}


def declared():
    """Each declared name with what it is: type, def, lemma, field or ctor."""
    kinds = collections.defaultdict(set)
    for path in sorted(glob.glob("crates/*/specs/*.antt") + glob.glob("crates/*/proofs/*.antt")):
        block = None
        lines = open(path, encoding="utf-8").read().split("\n")
        for i, line in enumerate(lines):
            text = line.strip()
            if not text or text.startswith(("--", "use ", "pub use")):
                continue
            indent = len(line) - len(line.lstrip())
            if block and indent <= block[0]:
                block = None
            found = HEAD.match(line)
            if not found or found.group(3) in NO_NAMES:
                continue
            words, name = found.group(2).split(), found.group(3)
            said = line[found.end():]
            j = i + 1
            while j < len(lines) and lines[j].strip() and len(lines[j]) - len(lines[j].lstrip()) > indent \
                    and not HEAD.match(lines[j]):
                said += " " + lines[j].strip()
                j += 1
            is_type = re.search(r"Type\s+\d\s*$", said.split(" where")[0])
            if "record" in words or "data" in words:
                kinds[name].add("type")
                block = (indent, "field" if "record" in words else "ctor")
            elif block:
                kinds[name].add(block[1])
            elif is_type:
                kinds[name].add("type")
            elif "abbrev" in words or "unfoldable" in words:
                kinds[name].add("def")
            else:
                kinds[name].add("lemma")
    return kinds


def spellings(kinds):
    joined = {n for n, k in kinds.items() if "def" in k} | STD

    def spelling(name):
        if name in BY_HAND:
            return BY_HAND[name]
        parts = name.split("-")
        if "type" in kinds[name] or name[0].isupper():
            return "".join(p[:1].upper() + p[1:] for p in parts)
        if kinds[name] == {"lemma"}:
            for k in range(1, len(parts)):
                left, right = "-".join(parts[:k]), "-".join(parts[k:])
                if left in joined and right in joined:
                    return left.replace("-", "_") + "-" + right.replace("-", "_")
        return name.replace("-", "_")

    out = {n: spelling(n) for n in kinds if "-" in n}
    out.update(BY_HAND)
    return out


def turned(text, new, made):
    """The text with the new spellings; `made` says that Rattle's own names stand here behind c, w, l and goal."""
    def one(found):
        name = found.group(0)
        if name not in new:
            return name
        before = text[:found.start()]
        if made and re.search(r"(?<![\w'.\-])(c|w|l|goal)\.$", before):
            return name
        return new[name]
    return TOKEN.sub(one, text)


def turned_line(line, new, mark, made):
    at = line.find(mark)
    if at < 0:
        return turned(line, new, made)
    prose = {n: s for n, s in new.items() if n not in PROSE}
    return turned(line[:at], new, made) + turned(line[at:], prose, made)


def main():
    kinds = declared()
    new = spellings(kinds)
    gone = collections.Counter(new.values())
    assert all(n == 1 for n in gone.values()), [n for n, k in gone.items() if k > 1]
    changed = 0
    for path in sorted(glob.glob("crates/*/**/*", recursive=True)):
        if "/out/" in path or not os.path.isfile(path):
            continue
        if path.endswith(".antt"):
            mark, made = "--", path.count("/") > 3
        elif path.endswith(".rt"):
            mark, made = "//", False
        elif path.endswith(".edit"):
            mark, made = "\0", False
        else:
            continue
        old = open(path, encoding="utf-8").read()
        text = "\n".join(turned_line(line, new, mark, made) for line in old.split("\n"))
        if text != old:
            changed += 1
            open(path, "w", encoding="utf-8").write(text)
    for path in sorted(glob.glob("docs/*.md") + ["README.md"]):
        old = open(path, encoding="utf-8").read()
        prose = {n: s for n, s in new.items() if n not in PROSE}
        text = re.sub(r"`[^`\n]*`", lambda m: turned(m.group(0), prose, False), old)
        if text != old:
            changed += 1
            open(path, "w", encoding="utf-8").write(text)
    print(f"respell: {len(new)} names, {changed} files")


main()
