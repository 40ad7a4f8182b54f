#!/usr/bin/env python3
"""Counts in crates/*/src and crates/*/proofs, at a commit, the places that docs/DESIGN-PASS.md speaks of: `tools/design_places.py COMMIT [--list POINT]`."""
import re
import subprocess
import sys


def git(*words):
    return subprocess.run(["git", *words], capture_output=True, text=True, check=True).stdout


def files(commit, part, ending):
    names = git("ls-tree", "-r", "--name-only", commit, "crates").splitlines()
    return {n: git("show", f"{commit}:{n}") for n in names if f"/{part}/" in n and n.endswith(ending)}


def lines(source, pattern):
    found = []
    for name, text in source.items():
        for number, line in enumerate(text.splitlines(), 1):
            if not line.lstrip().startswith(("//", "ghost use")) and re.search(pattern, line):
                found.append(f"{name}:{number}: {line.strip()}")
    return found


def functions(source):
    """Each function: its file, name, parameters and body."""
    found = []
    for name, text in source.items():
        for m in re.finditer(r"(?m)^( *)(?:pub(?:\(crate\))? )?(?:extern \"C\" )?fn (\w+)[^(]*\(", text):
            body = re.search(r"(?m)^%s\{?.*?\n%s\}" % (m.group(1), m.group(1)), text[m.start():], re.S)
            whole = body.group(0) if body else ""
            depth, end = 1, m.end()
            while depth and end < len(text):
                depth += {"(": 1, ")": -1}.get(text[end], 0)
                end += 1
            given = [p for p in re.split(r",\s*(?![^<\[(]*[>\])])", text[m.end():end - 1]) if p.strip()]
            found.append((name, m.group(2), given, whole))
    return found


def shape(body):
    """The code of a body with its names and numbers replaced, so that two functions that differ in these alone are the same."""
    code = body[body.find("{\n"):] if "{\n" in body else body
    code = re.sub(r"//[^\n]*", "", code)
    seen = {}
    return " ".join(
        seen.setdefault(t, f"n{len(seen)}") if re.match(r"[A-Za-z_]", t) else ("0" if t[0].isdigit() else t)
        for t in re.findall(r"[A-Za-z_]\w*|\d\w*|[^\s\w]", code)
    )


def twins(source):
    groups = {}
    for name, function, given, body in functions(source):
        code = body[body.find("{\n"):]
        if code.count("\n") >= 3 and len(re.findall(r"\w+", code)) >= 12:
            groups.setdefault(shape(body), []).append(f"{name.split('/')[1]}::{function}")
    return [" ~ ".join(g) for g in groups.values() if len(g) > 1]


def struct_twins(source):
    """Structs whose fields have the same names."""
    groups = {}
    for name, text in source.items():
        for struct, fields in re.findall(r"(?m)^(?:pub )?struct (\w+)[^{;]*\{\n(.*?)^\}", text, re.S):
            names = tuple(re.findall(r"(?m)^    (?:pub )?(\w+):", fields))
            if len(names) > 1:
                groups.setdefault(names, []).append(f"{name.split('/')[1]}::{struct}")
    return [" ~ ".join(g) for g in groups.values() if len(g) > 1]


def repeated_facts(source):
    """Facts of `requires` clauses that stand in three or more contracts."""
    facts = {}
    for name, text in source.items():
        for clause in re.findall(r"requires[^{\n]*\{ (.*) \}", text):
            for fact in re.split(r" × ", clause):
                facts.setdefault(fact.strip("() "), []).append(name)
    return [f"{len(v)} times: {k}" for k, v in facts.items() if len(v) >= 3]


def points(commit):
    source = files(commit, "src", ".rt")
    proofs = files(commit, "proofs", ".antt")
    answers = {n: t for n, t in proofs.items() if n.endswith(("Answers.antt", "Invariants.antt"))}
    return {
        "1 enums of the shape of Result": lines(source, r"\bRefused\(u32"),
        "1 refusals as numbers": lines(source, r"return \d+;|\b(number|refusal) != 0|return \w+::Refused\("),
        "1 flags and kinds as numbers": lines(source, r"\b(mirror|found|left_right|top_bottom): u\d+|\b(lit|swapped|is_red): bool|\blayout: u8|\bturn: u8"),
        "1 a row, and whether there is one, as two numbers": lines(source, r"if r < (rings::)?done\("),
        "1 refusals met by a dummy": lines(source, r"(turned|places_of).*\bunwrap_or\(0\)|= places_of\("),
        "2 functions of one shape": twins(source),
        "2 structs of the same fields": struct_twins(source),
        "3 loops that count by hand": lines(source, r"^\s*while "),
        "3 loops over the places of one slice": lines(source, r"for \w+ in 0\.\.\w+\.len\(\)"),
        "4 conversions by `as`": lines(source, r"\bas (u8|u16|u32|u64|i32|i64|usize|f64)\b"),
        "4 order, equality and signs by hand": lines(source, r"fn (larger|clipped|size|above_zero|below_zero|same_fields|same_samples|counted|zero|zero_wide|widened|wide|signed|byte|digit_count|if_exchanged|picked|chosen)\("),
        "4 the ceiling as a number": [x for x in lines(source, r"\b4095\b") if "_examples/" not in x],
        "5 functions of eight parameters and more": [f"{n}: {f}, {len(g)}" for n, f, g, b in functions(source) if len(g) >= 8],
        "5 facts in three contracts and more": repeated_facts(source),
        "6 buffers with a place beside them": [f"{n}: {f}" for n, f, g, b in functions(source) if any(re.match(r"\s*(at|from|to|start): usize", p) for p in g) and any("[" in p for p in g)],
        "7 switches on a step": lines(source, r"if (is_red|questions::two_levels\(|\w+\.two_levels\(\))|fn \w+\(\s*is_red"),
        "8 lines of answers and invariants": [x for t in answers.values() for x in t.splitlines()],
        "8 answers on lengths alone": lines(answers, r"^pub shape_of-"),
        "8 measures of loops": lines(answers, r"^abbrev pub decreases-"),
    }


def main():
    found = points(sys.argv[1])
    if len(sys.argv) > 3:
        for name, places in found.items():
            if name.startswith(sys.argv[3]):
                print(name, *places, sep="\n  ")
        return
    for name, places in found.items():
        print(f"{len(places):6} {name}")


main()
