#!/usr/bin/env python3
"""Spells the repository's own definitions and lemmas as Rattle's library spells its names.

usage: spelling.py [--check] [FOLDER]

A type, and a function into types, is in upper camel case (Near-forward: NearForward); every other name is in snake case (first-in: first_in,
timesE: times_e), but for a capital that stands at its head, which is a symbol of the papers (K-of: K_of). A name that a file takes from a
library, and one that Rattle makes for a proof, keeps its spelling. Names of the Rattle source, strings and the words of comments stay; a
comment's code spans turn. It goes by text: a check decides. FOLDER is the repository's top, this folder if left out. It stops before it
writes anything where two names of a file would fall together. A second run changes nothing.
"""

import collections
import os
import re
import sys

NAME = r"[^\s(){}.;,@\"«»]+"
DECLARED = re.compile(
    rf"(?m)^ *(?P<marks>(?:(?:unfoldable|abbrev|pub|axiom|pattern) )*)(?P<kind>record |data )?(?P<name>{NAME})"
    r"(?P<given>(?: (?:\([^()\n]*(?:\([^()\n]*\)[^()\n]*)*\)|\{[^{}\n]*\}))*) : (?P<type>[^\n]*(?:\n {4,}[^\n]*)*)"
)
INTO_TYPES = re.compile(r"(?:^|[→\s])Type(?: \d+| ℓ\S*)?\s*(?:where)?\s*$")
QUIET = re.compile(r'"(?:[^"\\\n]|\\.)*"|(?<![^\s(){}.;,@"«»])--[^\n]*|\{-.*?-\}', re.S)
QUIET_RT = re.compile(r'//[^\n]*|"(?:[^"\\\n]|\\.)*"|\'(?:[^\'\\\n]|\\.)\'', re.S)
SPAN = re.compile(r"`[^`\n]+`")
USE = re.compile(r"\buse ([^\s;{]+?)(?:\.?\{([^{}]*)\})?(?: as ([^\s;]+))?;?(?=\s|$)")
MADE = re.compile(r"\.proofs\.(?:.*\.)?(?:Tie|Statement|Lts|Reads|Code|Goals|Given|Met|Kinds)(?:\.|$)|\.specs\.(?:declared|contracts)(?:\.|$)")
TOKEN = re.compile(NAME)
HYPHEN = re.compile(r"[\w'₀-₉]-[\w'◌ℤℕ]")
HUMP = re.compile(r"(?<=[a-z0-9])(?=[A-Z])")


def sources(top):
    for folder, folders, files in os.walk(os.path.join(top, "crates")):
        folders[:] = sorted(f for f in folders if f not in ("out", "data", "must-fail"))
        for name in sorted(files):
            if name.endswith((".antt", ".rt")):
                yield os.path.join(folder, name)


def read(path):
    with open(path, encoding="utf-8", newline="") as file:
        return file.read()


def bare(text, quiet):
    return quiet.sub(lambda m: re.sub(r"[^\n]", " ", m[0]), text)


def snake(name):
    """Words joined by underscores; a hump in a word that begins small is another word, and a symbol of the papers (K, sin-B) keeps its capital."""
    if name[:1] in "◌-" or not (HYPHEN.search(name) or HUMP.search(name)):
        return name
    words = re.split(r"(?<=[\w'₀-₉])-(?=[\w'◌ℤℕ])", name)
    return "_".join(HUMP.sub("_", word).lower() if word[:1].islower() and HUMP.search(word) else word for word in words)


def camel(name):
    return "".join(part[:1].upper() + part[1:] for part in re.split(r"(?<=[\w'])-(?=[\w'])", name))


class Names:
    """What the files declare, and the spelling of each name."""

    def __init__(self, texts):
        self.types, self.others = set(), set()
        for path, text in texts.items():
            if not path.endswith(".antt"):
                continue
            for m in DECLARED.finditer(bare(text, QUIET)):
                into = m["kind"] or INTO_TYPES.search(re.sub(r"\n(?! {4,}[→(]).*", "", m["type"], flags=re.S))
                (self.types if into else self.others).add(m["name"])

    def spelled(self, name):
        if name in self.types and name[:1].isupper():
            return camel(name)
        return snake(name)

    def declared(self, name):
        return name in self.types or name in self.others


def foreign(text, own):
    """The names that the file takes from a library, or from a module that Rattle makes."""
    found = set()
    for m in USE.finditer(text):
        head = m[1].split(".")
        ours = head[0] == "Rattle" and len(head) > 1 and head[1] in own and not MADE.search(m[1])
        if m[2] is None:
            continue
        for item in m[2].split(","):
            words = item.split()
            if words and not ours:
                found.add(words[0])
                if len(words) == 3 and words[2] == words[0]:
                    found.add(words[2])
    return found


def turned(path, text, names, own):
    """The text with its names spelled anew, and a map from each name that changed to its new spelling."""
    quiet = QUIET if path.endswith(".antt") else QUIET_RT
    rust = path.endswith(".rt")
    stays = foreign(text, own)
    changes = {}

    def one(m, whole):
        word = m[0]
        dotted = whole[m.start() - 1 : m.start()] == "."
        if word in stays and not dotted or not (HYPHEN.search(word) or HUMP.search(word) or word in names.types):
            return word
        if (dotted or rust) and not names.declared(word):
            return word
        new = names.spelled(word)
        if new != word:
            changes[word] = new
        return new

    def code(part):
        return TOKEN.sub(lambda m: one(m, part), part)

    def quietly(part):
        if part[:2] not in ("--", "//", "{-"):
            return part
        return SPAN.sub(lambda m: TOKEN.sub(lambda w: names.spelled(w[0]) if names.declared(w[0]) and w[0] not in stays else w[0], m[0]), part)

    out, at = [], 0
    for m in quiet.finditer(text):
        out += [code(text[at : m.start()]), quietly(m[0])]
        at = m.end()
    return "".join(out) + code(text[at:]), changes


def main():
    words = [w for w in sys.argv[1:] if w != "--check"]
    top = words[0] if words else "."
    texts = {path: read(path) for path in sources(top)}
    own = {name for name in os.listdir(os.path.join(top, "crates"))}
    names = Names(texts)
    new, met = {}, []
    for path, text in texts.items():
        new[path], changes = turned(path, text, names, own)
        quiet = QUIET if path.endswith(".antt") else QUIET_RT
        before = {m[0] for m in TOKEN.finditer(bare(text, quiet))}
        back = collections.defaultdict(set)
        for old, fresh in changes.items():
            back[fresh].add(old)
        for fresh, olds in back.items():
            there = fresh in before and (names.declared(fresh) or re.search(rf"\b{re.escape(fresh)}:(?!:)", bare(text, quiet)))
            if len(olds) > 1 or there:
                met.append(f"{path}: {fresh} would stand for {', '.join(sorted(olds))}" + (" and is there" if there else ""))
    if met:
        print("\n".join(met))
        raise SystemExit(1)
    changed = [path for path in texts if new[path] != texts[path]]
    if "--check" not in sys.argv[1:]:
        for path in changed:
            with open(path, "w", encoding="utf-8", newline="") as file:
                file.write(new[path])
    print(f"{len(changed)} files of {len(texts)}")


main()
