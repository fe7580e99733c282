#!/usr/bin/env python3
"""Brings the names of definitions and lemmas to the spelling of today's Rattle: words in snake case, facts and types in camel case, and a dash only
between two names (a plain word is added with `_`). Run once, at the top, after the kit's port.py, on what that left.

It goes over specs/, proofs/ and the clauses of src/. A name that the Rust source declares keeps its spelling, and so does text in strings.
It stops, with nothing written, where two names would fall together in one file.
"""

import glob
import re
import sys

DECLARED = re.compile(r"^(\s*)(?:(?:abbrev|unfoldable|pub|ruleset|private)\s+)*([^\s(){};,.λ◌]+)\s*:\s+(.*)$")
TYPE = re.compile(r"^\s*(?:pub )?(?:data|record)\s+(\S+)")
WORD = re.compile(r"[A-Za-zℕℤ0-9_'′₀-₉-]+")
LOWER_CAMEL = re.compile(r"^[a-z][a-z0-9]*[A-Z]")

# Facts: their result is a type.
FACTS = {"connectionAsks": "ConnectionAsks"}

# Where the rule would give two names one spelling, or the name of something else.
BY_HAND = {"goesOn": "turn_goes_on", "class-at": "class_at_lem", "second-choices": "second_choices_lem"}


def sources():
    for pattern in ("crates/*/specs/**/*.antt", "crates/*/proofs/**/*.antt", "crates/*/src/**/*.rt"):
        yield from sorted(glob.glob(pattern, recursive=True))


def snake(word):
    return re.sub(r"(?<=[a-z0-9])([A-Z])", lambda m: "_" + m.group(1).lower(), word)


def declarations():
    """The names that specs/ and the lemmas of proofs/ declare: all; those of specs/; those that stand for a function of specs/; and the fields of records."""
    every, meant, functions, fields = set(), set(), set(), set()
    for path in sorted(glob.glob("crates/*/specs/**/*.antt", recursive=True) + glob.glob("crates/*/proofs/*.antt")):
        inside = None
        for line in open(path, encoding="utf-8"):
            if line.lstrip().startswith("--") or not line.strip():
                continue
            depth = len(line) - len(line.lstrip())
            if inside is not None and depth <= inside:
                inside = None
            m = TYPE.match(line)
            if m:
                every.add(m.group(1))
                meant.add(m.group(1))
                if re.match(r"^\s*(?:pub )?record\s", line):
                    inside = depth
                continue
            m = DECLARED.match(line)
            if not m:
                continue
            name = m.group(2)
            every.add(name)
            if inside is not None:
                fields.add(name)
            elif "/specs/" in path:
                meant.add(name)
                if re.match(r"^\s*(?:abbrev|unfoldable)\s", line):
                    functions.add(name)
    return every, meant, functions, fields


def bound():
    """What is left in lower camel case: names that a line shares with others, and names of variables."""
    for path in sources():
        if path.endswith(".antt") and not path.endswith("/Proof.antt"):
            for line in open(path, encoding="utf-8"):
                code = re.sub(r'"(?:[^"\\]|\\.)*"', "", line[: comment_at(line, "--")])
                yield from (word for word in WORD.findall(code) if LOWER_CAMEL.match(word) and "-" not in word)


# std's words that our lemmas are about, beside the functions that our own specs/ declare.
STD = set("length append take drop get_or set map filter replicate reverse sum cond not min max leb ltb eqb pos".split())


def joined(name, functions):
    """The name with a dash only between two names: all that stands left of it, and all that stands right."""
    parts = name.split("-")
    out = snake(parts[0])
    for k in range(1, len(parts)):
        left = snake("_".join(parts[:k]))
        right = snake("_".join(parts[k:]))
        first = snake(parts[k - 1]) in functions or left in functions
        then = snake(parts[k]) in functions or right in functions
        out += ("-" if first and then else "_") + snake(parts[k])
    return out


def table():
    """The names with a new spelling; and the lemmas that had a definition's new name already, which get `_lem`."""
    every, meant, functions, fields = declarations()
    functions = {snake(n) for n in functions if "-" not in n} | STD
    to = {}
    for name in every:
        if name in BY_HAND:
            to[name] = BY_HAND[name]
        elif name in FACTS:
            to[name] = FACTS[name]
        elif name[0].isupper() and "-" not in name:
            continue
        elif "-" in name or LOWER_CAMEL.match(name):
            new = snake(name.replace("-", "_")) if name in fields else joined(name, functions)
            if new != name:
                to[name] = new
    to.update({name: snake(name) for name in bound() if name not in to})
    words = {snake(name) for name in every if "-" not in name and LOWER_CAMEL.match(name)} | {name for name in meant if "-" not in name and name not in to}
    lemmas = {}
    for name in every:
        if "-" in name and to.get(name, name) in words:
            to[name] = to.get(name, name) + "_lem"
        elif "-" not in name and name in words and name not in meant and name not in to and name not in fields:
            lemmas[name] = name + "_lem"
    return to, lemmas


def turned(text, to, lemmas, rust):
    """Every name outside strings; in a comment a name with a dash only where backquotes hold it, since prose has dashes of its own."""
    return "\n".join("".join(pieces(line, to, {} if rust else lemmas, "//" if rust else "--")) for line in text.split("\n"))


def pieces(line, to, lemmas, mark):
    def name(m):
        word = m.group(0)
        if word in lemmas and (m.start() == 0 or m.string[m.start() - 1] != "."):
            return lemmas[word]
        return to.get(word, word)

    at = comment_at(line, mark)
    code, said = line[:at], line[at:]
    for part in re.split(r'("(?:[^"\\]|\\.)*")', code):
        yield part if part.startswith('"') else WORD.sub(name, part)
    for part in re.split(r"(`[^`]*`)", said):
        held = part.startswith("`")
        yield WORD.sub(lambda m: to.get(m.group(0), m.group(0)) if held or "-" not in m.group(0) else m.group(0), part)


def comment_at(line, mark):
    inside, k = False, 0
    while k < len(line):
        if line[k] == "\\" and inside:
            k += 1
        elif line[k] == '"':
            inside = not inside
        elif not inside and line.startswith(mark, k) and (k == 0 or line[k - 1] in " \t"):
            return k
        k += 1
    return len(line)


def fallen(path, text, to, lemmas):
    """Names that would fall together with another name of the file; a Rust function or a label may have a definition's name, and so may a walk's folder."""
    code = "\n".join(re.sub(r'"(?:[^"\\]|\\.)*"', "", line[: comment_at(line, "--")]) for line in text.split("\n"))
    words = set(WORD.findall(code))
    if path.endswith(".rt") or path.endswith("/Proof.antt"):
        return []
    return [f"{path}: {old} would be {to[old]}, which stands there too" for old in sorted(words & to.keys()) if to[old] in words and to[old] not in lemmas and to[old] not in to]


def main():
    to, lemmas = table()
    bad, made, texts = [], {}, {}
    for old, new in sorted({**to, **lemmas}.items()):
        if new in made:
            bad.append(f"{old} and {made[new]} would both be {new}")
        made[new] = old
    for path in sources():
        text = open(path, encoding="utf-8").read()
        bad += fallen(path, text, to, lemmas)
        texts[path] = (text, turned(text, to, lemmas, path.endswith(".rt")))
    if bad:
        print("\n".join(bad))
        print(f"{len(bad)} names would fall together")
        return 1
    changed = 0
    for path, (text, new) in texts.items():
        if text != new:
            with open(path, "w", encoding="utf-8") as out:
                out.write(new)
            changed += 1
    print(f"{len(to) + len(lemmas)} names, {changed} files")
    return 0


if __name__ == "__main__":
    sys.exit(main())
