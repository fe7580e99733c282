#!/usr/bin/env python3
"""Counts, in the sources under crates/*/src, the places that docs/DESIGN-PASS.md speaks of: one number for each point, and each place with `--list`.

    python3 tools/design_counts.py [--list] [FOLDER]

It goes by text: what it finds is to be read, and a place that stays has a line `// Kept (reason): ..` above it, which is counted beside it.
"""

import collections
import glob
import os
import re
import sys

WORDS = set("let mut if else while for in return match loop as fn self Self true false".split())
LOOP = r"^( *)(?:let \w+ = )?(?:'\w+: )?(?:while [^\n]*|loop) \{$"
TOKEN = re.compile(r"b?\"[^\"]*\"|b?'[^']*'|[A-Za-z_]\w*|\d[\d_]*|[^\sA-Za-z_0-9]")


def sources(top):
    for path in sorted(glob.glob(os.path.join(top, "crates/*/src/**/*.rt"), recursive=True)):
        with open(path, encoding="utf-8") as file:
            yield os.path.relpath(path, os.path.join(top, "crates")), file.read()


def functions(text):
    for found in re.finditer(r"^( *)(?:pub )?(?:const )?fn (\w+)(.*?)\n\1\}", text, re.M | re.S):
        whole = found.group(0)
        opened = re.search(r"\n" + found.group(1) + r"\{$| \{$", whole, re.M)
        yield found.group(2), whole[: opened.start()], whole[opened.end() :]


def parameters(head):
    inner = head[head.index("(") + 1 : ]
    depth, end = 1, 0
    for end, sign in enumerate(inner):
        depth += (sign in "([{<") - (sign in ")]}>")
        if depth == 0:
            break
    parts = re.split(r",\s*(?![^<\[(]*[>\])])", inner[:end])
    return [tuple(x.strip() for x in part.split(":", 1)) for part in parts if ":" in part]


def enums(path, text):
    """Two variants of which one has a value (Option), or both have (Result)."""
    for found in re.finditer(r"^(?:pub )?enum (\w+) \{\n(.*?)^\}", text, re.M | re.S):
        body = re.sub(r"//.*", "", found.group(2))
        variants = [line.strip().rstrip(",") for line in body.split("\n") if line.strip()]
        valued = [v for v in variants if "(" in v or "{" in v]
        if len(variants) == 2 and valued:
            yield f"{path}: enum {found.group(1)}"
        elif len(variants) == 3 and len(valued) == 1:
            yield f"{path}: enum {found.group(1)} (a value and two reasons)"


def flags(path, text):
    """A struct with a bool among its fields."""
    for found in re.finditer(r"^(?:pub )?struct (\w+) \{\n(.*?)^\}", text, re.M | re.S):
        for field in re.findall(r"^\s+(?:pub )?(\w+): bool,", found.group(2), re.M):
            yield f"{path}: struct {found.group(1)}, {field}"


def codes(path, text):
    """An impl whose constants number kinds: three or more of one small type, counted up by one or doubled."""
    for found in re.finditer(r"^impl (\w+) \{\n(.*?)^\}", text, re.M | re.S):
        numbers = re.findall(r"pub const ([A-Z_]+): u(?:8|16|32) = (\d+);", found.group(2))
        values = [int(n) for _, n in numbers]
        if len(values) >= 2 and all(b - a in (1, 2) or b == 2 * a for a, b in zip(values, values[1:])):
            yield f"{path}: {found.group(1)} ({len(values)} numbers)"


def pairs(path, text):
    """A refusal as a bare number and place, in a variant or a pair."""
    for found in re.finditer(r"^\s+(\w+)\(u8, (?:u32|usize)\),", text, re.M):
        yield f"{path}: {found.group(1)}(number, place)"


def loops(path, text):
    """A `while` or `loop` whose body adds or takes one by hand."""
    for name, _, body in functions(text):
        for found in re.finditer(LOOP + r"\n(.*?)^\1\}", body, re.M | re.S):
            if re.search(r"\b(\w+) (?:\+=|-=) 1;|\b(\w+) = \2 [+-] 1;", found.group(2)):
                kept = "// Kept (" in body[: found.start()].rstrip().rsplit("\n", 1)[-1]
                yield f"{path}: {name}{' (kept)' if kept else ''}"


def whiles(path, text):
    for name, _, body in functions(text):
        for found in re.finditer(LOOP, body, re.M):
            kept = "// Kept (" in body[: found.start()].rstrip().rsplit("\n", 1)[-1]
            yield f"{path}: {name}{' (kept)' if kept else ''}"


def by_hand(path, text):
    """Functions whose names say that they compare, order or convert."""
    for name, head, _ in functions(text):
        if re.match(r"(same|equal|spells|is_same|lesser|greater|least|most|min|max|clone|copy|from_|to_|as_|compare)", name):
            yield f"{path}: {name}"


def shape(body):
    out = []
    for token in TOKEN.findall(re.sub(r"//.*", "", body)):
        if re.match(r"b?[\"']|\d", token):
            out.append("@")
        elif re.match(r"[A-Za-z_]", token) and token not in WORDS:
            out.append("#")
        else:
            out.append(token)
    return out


def twins(all_sources):
    groups = collections.defaultdict(list)
    for path, text in all_sources:
        for name, _, body in functions(text):
            tokens = shape(body)
            if len(tokens) >= 14:
                groups[" ".join(tokens)].append(f"{path}: {name}")
    return [", ".join(group) for _, group in sorted(groups.items()) if len(group) > 1]


def facts(all_sources):
    """A word of a `requires` that three or more functions ask."""
    groups = collections.defaultdict(set)
    for path, text in all_sources:
        for name, head, _ in functions(text):
            for clause in re.findall(r"requires (?:\w+ )?\{(.*?)\}\s*$", head, re.M | re.S):
                for word in re.findall(r"\b[A-Z][A-Za-z]+\b(?=\s+[a-z(])", clause):
                    groups[word].add(f"{path}: {name}")
    return [f"{word}: " + "; ".join(sorted(where)) for word, where in sorted(groups.items()) if len(where) >= 3]


def travellers(all_sources):
    """Three parameters, by name and type, that come together in three or more functions."""
    groups = collections.defaultdict(set)
    for path, text in all_sources:
        for name, head, _ in functions(text):
            named = sorted(set(parameters(head)))
            for i in range(len(named)):
                for j in range(i + 1, len(named)):
                    for k in range(j + 1, len(named)):
                        groups[named[i], named[j], named[k]].add(f"{path}: {name}")
    seen, out = set(), []
    for trio, where in sorted(groups.items(), key=lambda item: (-len(item[1]), item[0])):
        if len(where) >= 3 and frozenset(where) not in seen:
            seen.add(frozenset(where))
            out.append(" ".join(f"{n}: {t}," for n, t in trio) + f" in {len(where)}")
    return out


def lengths(path, text):
    """A slice with its length in entries beside it."""
    for name, head, _ in functions(text):
        named = parameters(head)
        for (a, at), (b, bt) in zip(named, named[1:]):
            if at.startswith("&") and "[" in at and bt == "usize" and b in ("n", "m", "count", "length", "rows", "listed"):
                yield f"{path}: {name} ({a}, {b})"


def switches(path, text):
    """A `match` over five or more variants of one enum, each arm a call."""
    for name, _, body in functions(text):
        for found in re.finditer(r"^( *)match .* \{\n(.*?)^\1\}", body, re.M | re.S):
            arms = re.findall(r"^\s+\w+::\w+.*=> .*\(", found.group(2), re.M)
            if len(arms) >= 5:
                yield f"{path}: {name} ({len(arms)} arms)"


def main():
    given = [a for a in sys.argv[1:] if a != "--list"]
    texts = list(sources(given[0] if given else "."))
    each = lambda count: [place for path, text in texts for place in count(path, text)]
    rows = [
        ("1 own enums of the shape of Option or Result", each(enums)),
        ("1 a flag with values beside it", each(flags)),
        ("1 numbers for kinds", each(codes)),
        ("1 a refusal as a number and a place", each(pairs)),
        ("2 twins (groups)", twins(texts)),
        ("3 index counted by hand", each(loops)),
        ("3 every `while` and `loop`", each(whiles)),
        ("4 compared, ordered, converted by hand", each(by_hand)),
        ("5 facts asked by three or more functions", facts(texts)),
        ("5 parameters that travel together (threes)", travellers(texts)),
        ("6 a slice with its length beside it", each(lengths)),
        ("7 switches", each(switches)),
    ]
    for title, places in rows:
        print(f"{len(places):5} {title}")
        if "--list" in sys.argv:
            for place in places:
                print(f"        {place}")
    kept = sum(text.count("// Kept (") for _, text in texts)
    print(f"{kept:5} lines `// Kept (reason)`")


if __name__ == "__main__":
    main()
