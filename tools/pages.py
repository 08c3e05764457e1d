#!/usr/bin/env python3
"""Respells the names of definitions, lemmas and fields in the pages, by tools/snake.tsv: in backticks, and in indented blocks.

usage: python3 tools/pages.py [PAGE..]    at the top of the repository; without a PAGE, every page that cites such names

A name that the list lacks, as port.py had turned it before, is respelled where the crates have its new spelling and not the old one.
A projection is written tight there too: `(r .memory)` and `c .intact .entries` become `r.memory` and `c.intact.entries`.
Blocks between lines of three backticks are programs of other languages, and stay.
"""

import glob
import re
import sys

PAGES = ["README.md", "CONTRIBUTING.md", *glob.glob("docs/*.md"), *glob.glob("docs/changes/*.md"), *glob.glob("host/*.md"), *glob.glob("host/*/*.md"), *glob.glob("examples/*.md")]
# What tells of the respelling itself names both spellings.
KEPT = {"docs/PORT.md"}
NAME = re.compile(r"(?<![\w'./-])[A-Za-z][\w']*(?:-\w[\w']*)*")


def words():
    """The words of the crates' sources, definitions and lemmas."""
    found = set()
    for path in glob.glob("crates/*/s[rp]*/**/*.*t*", recursive=True) + glob.glob("crates/*/proofs/**/*.antt", recursive=True):
        if not path.endswith("/Proof.antt"):
            with open(path, encoding="utf-8") as it:
                found |= set(re.findall(r"[\w']+(?:-[\w']+)*", it.read()))
    return found


class Names(dict):
    def __init__(self, path):
        super().__init__()
        self.known = words()
        with open(path, encoding="utf-8") as it:
            self.update(line.rstrip("\n").split("\t") for line in it)

    def __missing__(self, name):
        new = name
        if name[0].islower() and ("-" in name or re.search("[a-z0-9][A-Z]", name)) and name not in self.known:
            turned = re.sub(r"([a-z0-9])([A-Z])", r"\1_\2", name.replace("-", "_")).lower()
            new = turned if turned in self.known else name
        return self.setdefault(name, new)


def respelled(text, new):
    text = NAME.sub(lambda m: new[m.group(0)], text)
    text = re.sub(r"(?<=::)[A-Za-z][\w']*", lambda m: new[m.group(0)], text)
    text = re.sub(r"\(([a-z][\w']*) \.([a-z]\w*)\)", r"\1.\2", text)
    return re.sub(r"(?<=[\w'])((?: \.[a-z]\w*)+)", lambda m: m.group(0).replace(" ", ""), text)


def page(text, new):
    lines, fenced = [], False
    for line in text.split("\n"):
        if line.startswith("```"):
            fenced = not fenced
        elif not fenced and line.startswith("    "):
            line = respelled(line, new)
        elif not fenced:
            line = re.sub(r"`[^`]+`", lambda m: respelled(m.group(0), new), line)
        lines.append(line)
    return "\n".join(lines)


def main():
    new = Names("tools/snake.tsv")
    for path in sys.argv[1:] or sorted({*PAGES} - KEPT):
        with open(path, encoding="utf-8") as it:
            text = it.read()
        turned = page(text, new)
        if turned != text:
            with open(path, "w", encoding="utf-8") as it:
                it.write(turned)
            print(path)


if __name__ == "__main__":
    main()
