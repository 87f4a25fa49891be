#!/usr/bin/env python3
"""Spells this repository's own definitions and lemmas in snake case, and renames the crate bytes, whose name is a library's, to octets.

usage: python3 tools/port/spell_names.py     at the top, right after the toolchain's port.py, once

It turns crates/ (specs, proofs, contracts, must-fail edits) and the names in README.md, docs/ and tools/. Functions of src/, exported C
names, strings, inputs and outputs keep their names. It stops where two names would fall together.
"""
import os
import re
import subprocess
import sys

CAMEL = re.compile(r"[a-z][a-z0-9]*(?:[A-Z][a-z0-9]*)+")
WORD = re.compile(r"[^\s(){}.;,@\"«»`\[\]]+")
KEEP = {"lL"}
CRATE, NEW_CRATE = "bytes", "octets"
# Lemmas and a field that would get the name of the definition that they are about, with the crates that cite them.
LEMMAS = {"goes_on": ["printing"], "one_byte": ["sums"], "point_at": ["frames"], "same_number": ["frames"], "too_large": ["samples"], "whole_part": ["shaping"], "same_bytes": ["bytes"]}


def snake(name):
    s = re.sub(r"(?<=[a-z0-9])([A-Z])", r"_\1", name).lower()
    return s.replace("_in256ths", "_in_256ths")


def spelled(word, names):
    """A word, whose parts between dashes are names."""
    parts = word.split("-")
    return "-".join(snake(p) if p in names else p for p in parts)


def files(*ends, under="crates"):
    for folder, dirs, fs in os.walk(under):
        dirs[:] = sorted(d for d in dirs if d not in ("out", "target", ".git"))
        for f in sorted(fs):
            if f.endswith(ends):
                yield os.path.join(folder, f)


def read(p):
    with open(p, encoding="utf-8") as f:
        return f.read()


def write(p, t):
    with open(p, "w", encoding="utf-8") as f:
        f.write(t)


def declared():
    """The names in camel case that begin in lower case, as the definitions, lemmas, fields and parameters of specs/ and proofs/ have them."""
    found = set()
    for p in files(".antt"):
        text = "\n".join(line.split("--")[0] for line in read(p).splitlines())
        for w in WORD.findall(text):
            for part in w.split("-"):
                if CAMEL.fullmatch(part) and part not in KEEP:
                    found.add(part)
    return found


# Names of Rattle's own that are spelled so.
def of_the_library(names):
    own = set()
    for p in files(".antt"):
        for line in read(p).splitlines():
            m = re.match(r"\s*(?:pub )?use (\S+?)\.\{(.*)\}", line)
            if m and not m.group(1).startswith("Rattle.") or (m and re.match(r"Rattle\.(std|core)\b", m.group(1))):
                own |= {w.split(" as ")[0] for w in m.group(2).split(", ")}
    return names & own


def main():
    names = declared()
    lib = of_the_library(names)
    names -= lib
    if lib:
        print("left to the library:", " ".join(sorted(lib)))
    # no two names may meet
    new = {}
    for n in sorted(names):
        new.setdefault(snake(n), []).append(n)
    bad = [v for v in new.values() if len(v) > 1]
    for v in bad:
        print("would fall together:", v)
    clash = {}
    for p in list(files(".antt")) + list(files(".rt")):
        text = "\n".join(re.split(r"--|//", line)[0] for line in read(p).splitlines())
        words = set(re.findall(r"(?<![.\w'-])[A-Za-z_][\w'-]*", text))
        dotted = set(re.findall(r"(?<![\w'-])[A-Za-z_][\w'-]*", text))
        for n in names:
            if n in dotted and snake(n) in words:
                clash.setdefault((n, snake(n)), []).append(p)
    for k, v in sorted(clash.items()):
        print("both in one file:", k, v[:4], len(v))
    if "--look" in sys.argv:
        return 0
    if bad:
        return 1
    for lemma, crates in LEMMAS.items():
        for c in crates:
            for p in files(".antt", under=f"crates/{c}"):
                old = read(p)
                text = re.sub(rf"(?<![\w.'/-]){lemma}(?![\w.'-])", f"{lemma}_lem", old)
                if text != old:
                    write(p, text)
    n = 0
    for p in list(files(".antt")) + list(files(".rt")) + list(files(".edit")):
        old = text = read(p)
        text = re.sub(r"(?<![^\s(){}.;,@\"«»`\[\]])[A-Za-z][^\s(){}.;,@\"«»`\[\]:]*", lambda m: spelled(m.group(0), names), text)
        text = turn_crate(text, p)
        if text != old:
            write(p, text)
            n += 1
    for p in list(files(".md", under="docs")) + ["README.md"] + list(files(".md", under="tools")):
        old = text = read(p)
        text = re.sub(r"(?<![\w.-])[a-z][A-Za-z0-9-]*", lambda m: spelled(m.group(0), names), text)
        text = re.sub(r"(?<=[.(`])[a-z][A-Za-z0-9-]*", lambda m: spelled(m.group(0), names), text)
        if text != old:
            write(p, text)
            n += 1
    # the crate
    t = read("crates.txt")
    t = re.sub(rf"(?m)(?<![\w]){CRATE}(?![\w])", NEW_CRATE, t)
    write("crates.txt", t)
    subprocess.check_call(["git", "mv", f"crates/{CRATE}", f"crates/{NEW_CRATE}"])
    print(n, "files")
    return 0


def turn_crate(text, p):
    text = re.sub(rf"\bRattle([.·]){CRATE}([.·])", rf"Rattle\g<1>{NEW_CRATE}\g<2>", text)
    if p.endswith(".rt") or p.endswith(".edit"):
        text = re.sub(rf"\b{CRATE}::", f"{NEW_CRATE}::", text)
    return text


if __name__ == "__main__":
    raise SystemExit(main())
