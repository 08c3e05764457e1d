#!/usr/bin/env python3
"""Writes the repository's own definitions, lemmas, fields and constructors in snake case, in the files of crates/ that port.py turned.

usage: python3 tools/snake.py [--check]    at the top of the repository, once, after port.py

A name that the repository declares in specs/ or proofs/ and that begins with a small letter loses its capitals and dashes: checkOf and
total-append become check_of and total_append. Where a definition and a lemma fall together, the lemma ends in _law. Names that Rattle
makes (goals, loops, F_spec), names that a file brings from the kit, functions of src/, strings and types keep their spelling.
--check prints what would clash, and writes nothing.
"""

import collections
import os
import re
import sys

WORD = r"[^\s(){}.;,@\"«»\[\]\\λ`:]+|:"
TOKEN = re.compile(r"--[^\n]*|\"(?:[^\"\\]|\\.)*\"|" + WORD)
CAMEL = re.compile(r"[a-z0-9][A-Z]")
KIT = re.compile(r"(?m)^use ((?:mathlib|lib|Prim|native|borrow|denote|seplogic|Rattle\.std)[\w.]*)\.\{([^}]*)\}")
TOP = re.compile(r"(?m)^(?:(?:abbrev|unfoldable|pub|opaque) )*(?:record |data )?([^\s(){}.;,]+)(?: (?:\(|\{|:)| : )(.*)")
INSIDE = re.compile(r"(?m)^  +(?:pub )?([^\s(){}.;,:]+(?: [^\s(){}.;,:]+)*) : ")
NOT_NAMES = set("use record data unfolding mod let in pub abbrev unfoldable where".split())


def files(end):
    for folder, dirs, names in os.walk("crates"):
        dirs[:] = sorted(d for d in dirs if d != "out")
        for name in sorted(names):
            if name.endswith(end):
                yield os.path.join(folder, name)


def read(path):
    with open(path, encoding="utf-8") as it:
        return it.read()


def bare(text):
    return re.sub(r"--[^\n]*", "", text)


def is_proof(path):
    return os.path.basename(path) == "Proof.antt"


def made(path, text):
    """The names that a proof of a function declares for Rattle: those with a type of its own module `tie`, and its theorem."""
    if not is_proof(path):
        return set()
    of_tie = {m.group(1) for m in TOP.finditer(bare(text)) if re.match(r"(\{[^}]*\} → )?(tie\.|statement)", m.group(2).strip())}
    return of_tie | {m.group(1) for m in TOP.finditer(bare(text)) if m.group(1).endswith(("-spec", "_spec"))}


def snake(name):
    name = name.replace("-", "_")
    return re.sub(r"[A-Z]", lambda m: m.group(0).lower(), re.sub(r"([a-z0-9])([A-Z])", r"\1_\2", name))


def is_old(name):
    return name[0].islower() and ("-" in name or CAMEL.search(name)) and re.fullmatch(r"[\w'-]+", name)


def names():
    """The map from each old name to its new one."""
    tops, fields = set(), set()
    for path in files(".antt"):
        text = bare(read(path))
        skip = made(path, text)
        tops |= {m.group(1) for m in TOP.finditer(text)} - skip - NOT_NAMES
        fields |= {n for m in INSIDE.finditer(text) for n in m.group(1).split()} - NOT_NAMES
        tops |= set(re.findall(r"[{,] ?[\w'-]+ as ([\w'-]+)", text)) - skip
    old = {n for n in tops | fields if is_old(n)}
    camel = {n for n in old if CAMEL.search(n)}
    new = {n: snake(n) for n in camel}
    taken = set(new.values()) | {n for n in tops if not is_old(n)}
    for n in sorted(old - camel):
        new[n] = snake(n) + ("_law" if snake(n) in taken else "")
    return new, tops, fields


def hidden(new):
    """For each file, the names that stand there in the new spelling of another: port.py respelled these lemmas. They end in _law."""
    of = collections.defaultdict(set)
    modules = collections.defaultdict(set)
    for path in files(".antt"):
        text = bare(read(path))
        declared = {m.group(1) for m in TOP.finditer(text)} | {n for m in INSIDE.finditer(text) for n in m.group(1).split()}
        declared |= {n for m in re.finditer(r"\(([\w]+) : ", text) for n in [m.group(1)]}
        here = set(re.findall(r"(?<![\w'.-])[\w'-]+(?!\.)", text))
        for n in sorted(set(re.findall(r"[\w'-]+", text)) & set(new)):
            if new[n] in here & declared:
                of[path].add(new[n])
                modules[re.sub(r"^crates/(\w+)/(.*)\.antt$", lambda m: f"Rattle.{m.group(1)}.{m.group(2).replace('/', '.')}", path)].add(new[n])
    for path in files(".antt"):
        for m in re.finditer(r"(?m)^use (Rattle[\w.]*)\.\{([^}]*)\}", bare(read(path))):
            of[path] |= modules[m.group(1)] & {n.strip() for n in m.group(2).split(",")}
    return of


def turn(path, text, new, of):
    kept = set(made(path, text))
    new = dict(new, **{n: n + "_law" for n in of})
    for m in KIT.finditer(bare(text)):
        kept |= {n.strip().split(" as ")[-1] for n in m.group(2).split(",")} | {n.strip().split(" as ")[0] for n in m.group(2).split(",")}

    def one(m):
        word = m.group(0)
        if word.startswith('"'):
            return word
        if word.startswith("--"):
            word = re.sub(r"`[^`\n]*`", lambda q: re.sub(r"[\w'-]+", lambda w: new.get(w.group(0), w.group(0)), q.group(0)), word)
            return re.sub(r"[A-Za-z][\w']*", lambda w: new.get(w.group(0), w.group(0)) if CAMEL.search(w.group(0)) else w.group(0), word)
        before = text[max(0, m.start() - 4) : m.start()]
        if before == "tie." or word in kept or word in of and before.endswith("."):
            return word
        return new.get(word, word)

    return TOKEN.sub(one, text)


def turn_rt(text, new):
    """In .rt files and edits: camelCase anywhere, dashes only in lines of clauses and imports."""
    out = []
    for line in text.split("\n"):
        line = re.sub(r"\b[a-z][a-z0-9]*(?:[A-Z][A-Za-z0-9]*)+'*", lambda w: new.get(w.group(0), w.group(0)), line)
        if re.search(r"ghost |requires|ensures|≡|→", line):
            line = re.sub(r"(?<![\w'-])[a-z][\w']*(?:-[\w']+)+", lambda w: new.get(w.group(0), w.group(0)), line)
        out.append(line)
    return "\n".join(out)


def clashes(new):
    """Places where a new name stands already beside the old one, so that one may hide the other."""
    for path in list(files(".antt")) + list(files(".rt")):
        text = re.sub(r"//[^\n]*", "", read(path)) if path.endswith(".rt") else bare(read(path))
        words = set(re.findall(r"[\w'-]+", text))
        here = set(re.findall(r"(?<![\w'.-])[\w'-]+(?!\.)", text))
        for n in sorted(words & set(new)):
            if new[n] in here:
                yield f"clash: {path}: {n} -> {new[n]}"


def main():
    new, tops, fields = names()
    again = collections.Counter(new.values())
    for n in sorted(new):
        if again[new[n]] > 1:
            print(f"falls together: {n} -> {new[n]}")
    if "--check" in sys.argv:
        for line in clashes(new):
            print(line)
        print(len(new), "names")
        return
    of = hidden(new)
    for path in sorted(of):
        if of[path]:
            print(f"{path}: {' '.join(sorted(of[path]))} end in _law")
    for path in files(".antt"):
        text = read(path)
        out = turn(path, text, new, of[path])
        if out != text:
            open(path, "w", encoding="utf-8").write(out)
    for end in (".rt", ".edit"):
        for path in files(end):
            text = read(path)
            out = turn_rt(text, new)
            if out != text:
                open(path, "w", encoding="utf-8").write(out)
    with open("tools/snake.tsv", "w", encoding="utf-8") as it:
        it.writelines(f"{n}\t{new[n]}\n" for n in sorted(new))


if __name__ == "__main__":
    main()
