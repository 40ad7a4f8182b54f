#!/usr/bin/env python3
"""Spells this repository's own names as today's Rattle does.

usage: python3 tools/spelling.py        at the top of the repository, once, right after the kit's port.py

    plane-of, sample-bytes, how-many  ->  plane_of, sample_bytes, how_many     definitions, fields, constructors, names bound in a proof
    length-overwrite                  ->  length-overwrite                     a dash stays in a lemma's name between the names of two definitions
    rows-laid-append                  ->  rows_laid-append
    overwrite-none                    ->  overwrite_none                       a plain word is joined by an underscore

A name is turned where it stands as a word: in specs/, proofs/, the clauses of src/, must-fail/ and in the code spans of comments and of pages.
Names of the library and those that Rattle makes for a proof stay. It prints what it turned, and stops before it writes anything if two names
would fall together.
"""

import collections
import os
import re
import sys

WORD = re.compile(r"[^\s(){}.;,@\"«»\[\]\\`]+")
MARKS = r"(?:pub\s+|abbrev\s+|unfoldable\s+|opaque\s+)*"
RECORD = re.compile(rf"^(\s*){MARKS}(?:record|data)\s+([^\s(){{}}.;,@\"«»\[\]\\]+)")
DECLARED = re.compile(rf"^(\s*)({MARKS})([^\s(){{}}.;,@\"«»\[\]\\]+)\s+:(?!\S)")
# Words of the library that lemmas are named after.
LIBRARY = set("length take drop set sets map append get_or replicate cond eqb leb ltb min max nat_abs abs reverse sum".split())
# A list's element was once read by getD, which is get_or today.
SINGLE = {"get_d_tabulate": "get_or-tabulate", "tabulate-getD": "tabulate-get_or"}
MADE = re.compile(r"tie\.(Need|invariant|decreases)-")


def texts(root):
    for folder, dirs, files in os.walk(os.path.join(root, "crates")):
        dirs[:] = sorted(d for d in dirs if d != "out")
        for name in sorted(files):
            if name.endswith((".antt", ".rt", ".edit")):
                yield os.path.join(folder, name)


def read(path):
    with open(path, encoding="utf-8") as f:
        return f.read()


def code_of(line):
    return re.sub(r"(?<!\S)--.*", "", line)


def imports(text, own):
    """The names that a file's `use` items bring from modules that are not the repository's."""
    out = set()
    for module, names in re.findall(r"use\s+([^\s{;]+?)\.?\{([^}]*)\}", text):
        if module.startswith("Rattle.") and module.split(".")[1] in own:
            continue
        for one in names.split(","):
            out |= set(one.split())
    return out


def declared(paths):
    """The names that the repository declares, each with its kind: a word of specs/, another definition, a lemma, or what stands inside one."""
    kinds = {}
    rank = {"inner": 0, "lemma": 1, "definition": 2, "word": 3}
    for path in paths:
        if not path.endswith(".antt"):
            continue
        specs = "/specs/" in path
        inside = None
        for line in read(path).splitlines():
            code = code_of(line)
            for alias in re.findall(r"^use .* as ([^\s;]+)$", code):
                kinds.setdefault(alias, "inner")
            if MADE.search(code):
                continue
            r = RECORD.match(code)
            if r:
                inside = len(r.group(1))
                kinds.setdefault(r.group(2), "definition")
                continue
            m = DECLARED.match(code)
            if not m:
                if code.strip() and not code.startswith(" "):
                    inside = None
                continue
            indent, marks, name = m.groups()
            if inside is not None and len(indent) > inside:
                kind = "inner"
            else:
                inside = None
                kind = "word" if specs else "definition" if "abbrev" in marks or "unfoldable" in marks else "lemma"
            if rank.get(kinds.get(name), -1) < rank[kind]:
                kinds[name] = kind
    return kinds


def made_names(paths):
    """What the proofs of functions call the goals: they are Rattle's names, under another type."""
    out = set()
    for path in paths:
        if path.endswith(".antt"):
            for line in read(path).splitlines():
                if MADE.search(line):
                    out.add(line.split(" :")[0].split()[-1])
    return out


def lemma(name, words):
    """The parts of a lemma's name: the longest names of definitions that stand in it, and plain words."""
    parts = name.split("-")
    out, i = [], 0
    while i < len(parts):
        for j in range(len(parts), i, -1):
            one = "_".join(parts[i:j])
            if one in words:
                break
        else:
            j, one = i + 1, parts[i]
        out.append((one, one in words))
        i = j
    text = out[0][0]
    for (_, before), (one, known) in zip(out, out[1:]):
        text += ("-" if before and known else "_") + one
    return text


def spellings(paths):
    own = {p.split("/crates/")[1].split("/")[0] for p in paths}
    library = set()
    for path in paths:
        library |= imports(read(path), own)
    kinds = declared(paths)
    made = made_names(paths)
    tokens = collections.Counter()
    for path in paths:
        if path.endswith(".antt") and not re.search(r"/proofs/.*/Proof\.antt$", path):
            for line in read(path).splitlines():
                tokens.update(t for t in WORD.findall(code_of(line)) if re.search(r"[^\W\d_]['′₀-₉ℤℕ]*-[^\W_]|[ℤ≈*+≤]-\w|\w-≈", t))
    for t in tokens:
        kinds.setdefault(t, "inner")
    words = LIBRARY | {n.replace("-", "_") for n, k in kinds.items() if k == "word" and n[0].islower()}
    new = {}
    for name, kind in kinds.items():
        if "-" not in name[1:] or name in library or (name in made and kind not in ("word", "definition")):
            continue
        if name.startswith("-") or re.fullmatch(r"[-+*≤<∘]+\S?", name):
            continue
        if re.match(r"(Need|Then|Else|After|Start|In|Loop)-", name):
            continue
        turned = lemma(name, words) if kind == "lemma" and not name.endswith("-spec") else name.replace("-", "_")
        if turned != name:
            new[name] = turned
    for name, turned in SINGLE.items():
        if name in kinds:
            new[name] = turned
    by_new = collections.defaultdict(set)
    for name, turned in new.items():
        by_new[turned].add(name)
    together = {t: o for t, o in by_new.items() if len(o) > 1 or (t in kinds and t not in new) or t in library}
    return new, kinds, together


def turn_words(text, new):
    return WORD.sub(lambda m: new.get(m.group(0), m.group(0)), text)


def turn_spans(text, new):
    return re.sub(r"`[^`\n]*`", lambda m: turn_words(m.group(0), new), text)


def turn_line(line, new, comment):
    m = re.search(comment, line)
    code, rest = (line[: m.start()], line[m.start() :]) if m else (line, "")
    return turn_words(code, new) + turn_spans(rest, new)


def turn(path, text, new):
    if path.endswith(".md"):
        return turn_spans(text, new)
    if path.endswith(".edit"):
        return "\n".join(turn_words(l, new) if re.match(r"(old|new):", l) else turn_spans(l, new) for l in text.split("\n"))
    comment = r"(?<!\S)--" if path.endswith(".antt") else r"//"
    return "\n".join(turn_line(l, new, comment) for l in text.split("\n"))


def main():
    root = os.getcwd()
    paths = list(texts(root))
    new, kinds, together = spellings(paths)
    for turned, names in sorted(together.items()):
        print(f"falls together: {turned}: {', '.join(sorted(names))}")
    if together and "--force" not in sys.argv:
        return 1
    if "--show" in sys.argv:
        for name in sorted(new):
            print(f"{kinds[name]:10} {name} {new[name]}")
        return 0
    pages = [os.path.join(root, "README.md")] + [os.path.join(root, "docs", f) for f in sorted(os.listdir(os.path.join(root, "docs"))) if f.endswith(".md")]
    count = 0
    for path in paths + pages:
        text = read(path)
        turned = turn(path, text, new)
        if turned != text:
            count += 1
            with open(path, "w", encoding="utf-8") as f:
                f.write(turned)
    print(f"{len(new)} names turned in {count} files")
    return 0


if __name__ == "__main__":
    sys.exit(main())
