#!/usr/bin/env python3
"""Counts the places in src/ (and the proofs) that an older form of the language left: docs/DESIGN-PASS.md says what each count is.

    tools/design_places.py [-v] [COMMIT]     of the files as they lie, or of a commit; -v lists each place
"""
import re
import subprocess
import sys
from pathlib import Path

ROOT = Path(__file__).resolve().parent.parent


def texts(commit, end):
    """Path and text of each file of crates/ that ends so."""
    if commit is None:
        for path in sorted(ROOT.glob(f"crates/**/*{end}")):
            if "/out/" not in str(path):
                yield str(path.relative_to(ROOT)), path.read_text()
        return
    names = subprocess.run(["git", "ls-tree", "-r", "--name-only", commit, "crates"], cwd=ROOT, capture_output=True, text=True, check=True)
    for name in names.stdout.splitlines():
        if name.endswith(end):
            yield name, subprocess.run(["git", "show", f"{commit}:{name}"], cwd=ROOT, capture_output=True, text=True, check=True).stdout


def functions(text):
    """Each function: its name, its head with the clauses, its body."""
    lines = text.splitlines()
    for first, line in enumerate(lines):
        found = re.match(r"( *)(?:pub(?:\([a-z]+\))? )?(?:extern \"C\" )?fn (\w+)", line)
        if found:
            opens = next(k for k in range(first, len(lines)) if lines[k].endswith("{"))
            closes = next((k for k in range(opens, len(lines)) if lines[k] == found[1] + "}"), opens)
            yield found[2], "\n".join(lines[first:opens + 1]), "\n".join(lines[opens + 1:closes])


def blocks(text, word):
    """Each struct or enum: its name and its text."""
    for found in re.finditer(rf"^(?:pub )?{word} (\w+)[^\n]*\{{$(.*?)^\}}$", text, re.M | re.S):
        yield found[1], found[2]


def shape(head, body):
    """A function's text with its names numbered as they come and its numbers left out, or nothing where it is too short to tell."""
    head = re.sub(r"^ *(requires|ensures)\b.*$", "", head, flags=re.M).rstrip("{ \n")
    body = re.sub(r"//.*$", "", body, flags=re.M)
    if len([line for line in body.splitlines() if line.strip()]) < 3:
        return None
    seen = {}
    keep = set("fn let mut if else while for in match return true false as pub i64 u64 u8 usize bool self impl".split())

    def number(word):
        return word if word in keep else seen.setdefault(word, f"v{len(seen)}")

    text = re.sub(r"\b\d[\d_.]*\b", "0", head + body)
    return re.sub(r"\b[A-Za-z_]\w*\b", lambda found: number(found[0]), re.sub(r"\s+", " ", text))


def code_places(path, text):
    """Point and place, for each place of one source file."""
    for name, block in blocks(text, "enum"):
        if re.search(r"\b(Refused|Unknown|OnEdge|Zero)\b", block):
            yield "1 own enum of the shape of Option, Result or Ordering", name
    for name, block in blocks(text, "struct"):
        for flag in re.findall(r"(\w+): bool", block):
            yield "1 flag beside values", f"{name}.{flag}"
    for name, head, body in functions(text):
        lines = body.count("\n")
        if re.search(r"-> u8\b", head) and name not in ("number", "code_of", "source_of", "target_of"):
            yield "1 refusal as a number", name
        if re.search(r"krasovsky: bool", head):
            yield "1 flag for a kind", name
        if re.search(r"\b(kind|table) == \d", body):
            yield "1 number for a kind", name
        for _ in re.finditer(r"\bwhile\b", body):
            yield "3 while", name
        if re.search(r"return (true|false);", body):
            yield "4 truth value by branches", name
        if re.search(r"Accepted \w+\.now", head):
            yield "5 fact repeated (Accepted)", name
        if re.search(r"\b([a-z])x: i64,\s*\1y: i64", head):
            yield "5 numbers of a corner as parameters", name
        if re.search(r"low_x: i64,\s*high_x: i64", head):
            yield "5 numbers of a box as parameters", name
        if re.search(r"lows: &(mut )?\[i64", head):
            yield "6 parallel arrays as parameters", name
        if lines > 39:
            yield "- function of 40 lines or more (tables)", name


def main():
    words = [word for word in sys.argv[1:] if word != "-v"]
    commit = words[0] if words else None
    places, shapes = {}, {}
    for path, text in texts(commit, ".rt"):
        for point, place in code_places(path, text):
            places.setdefault(point, []).append(f"{path}: {place}")
        for name, head, body in functions(text):
            key = shape(head, body)
            if key:
                shapes.setdefault(key, []).append(f"{path}: {name}")
    twins = [group for group in shapes.values() if len(group) > 1]
    places["2 functions of one shape (all but the first of each shape)"] = [" = ".join(group) for group in twins for _ in group[1:]]
    walks = [path for path, text in texts(commit, "/Proof.antt")]
    places["8 proofs that walk the code by hand"] = walks
    for point in sorted(places):
        print(f"{len(places[point]):5} {point}")
        if "-v" in sys.argv[1:]:
            for place in dict.fromkeys(places[point]):
                print(f"        {place}")


if __name__ == "__main__":
    main()
