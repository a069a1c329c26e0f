"""Brings the repository's own definitions and lemmas to snake case, once, after /opt/rattle/port/port.py.

usage: python3 tools/respell.py [--list]      at the top of the repository

A name that specs/ or proofs/ declare (a definition, a lemma, a label, a constructor) and that begins with a small letter gets
'_' for each dash and before each inner capital. A lemma that would fall on a definition's name gets '_lem' after it. Names of
src/, strings, inputs and outputs stay. In the pages only what stands between backticks is turned.
"""
import glob
import os
import re
import sys

NAME = r"[A-Za-z][A-Za-z0-9_'₀-₉-]*"
TOKEN = re.compile(r"(?<![A-Za-z0-9_'-])" + NAME)
DECLARED = re.compile(r"^\s*(?:(?:unfoldable|abbrev|pub|data|record)\s+)*(" + NAME + r")\s*(?:\(.*\)\s*|\{.*\}\s*)*:\s")
TURNED = re.compile(r"[a-z0-9][A-Z]|-")
IMPORT = re.compile(r"^(?:pub )?(?:ghost )?use ([^\s{;]+)(?:\.\{([^}]*)\})?")

# A lemma beside a definition of its name.
LEMMAS = ["all-of", "key-at", "kind-of", "with-code", "after-charge", "loader-rows", "unless-bad", "two-reads", "entries-end", "price-of", "region-of", "work-wiped", "check-by", "row-part", "pays-fresh", "register-step"]
# The same, where port.py had already turned the lemma's dash: the lemma, its crate.
TURNED_ALREADY = [
    ("goes_on", "isa"),
    ("read_back", "words"),
    ("to_write", "container_writer"),
    ("left_by", "interp"),
    ("left_by", "changes"),
    ("goes_with", "ops_crypto"),
]


def snake(name):
    name = re.sub(r"(?<=[a-z0-9'])([A-Z])", lambda m: "_" + m[1].lower(), name.replace("-", "_"))
    return name.lower()


def antt():
    for folder in ("specs", "proofs"):
        yield from sorted(glob.glob(f"crates/*/{folder}/**/*.antt", recursive=True))


def own(path):
    """Whether a path of a use line is of this repository."""
    part = path.split(".")
    return len(part) > 1 and part[0] == "Rattle" and os.path.isdir("crates/" + part[1])


def declared():
    names = set()
    for path in antt():
        with open(path, encoding="utf-8") as f:
            for line in f:
                m = DECLARED.match(line)
                if m and m[1][0].islower() and TURNED.search(m[1]) and not line.lstrip().startswith("let "):
                    names.add(m[1])
    return names


def table():
    names = {n: snake(n) for n in declared()}
    for n in LEMMAS:
        names[n] = snake(n) + "_lem"
    return names


def foreign(text):
    """The names that a file takes from the toolchain's library."""
    out = set()
    for line in text.split("\n"):
        m = IMPORT.match(line)
        if m and m[2] and not own(m[1]):
            out |= {w.strip() for w in m[2].split(",")}
    return out


def turn(text, names, made):
    """`made`: whether the text is a proof of a function, where a name behind a dot is Rattle's."""
    taken = foreign(text)

    def one(m):
        n = m[0]
        if n in taken or n not in names:
            return n
        before = text[: m.start()]
        if made and before.endswith(".") and "-" in n:
            return n
        return names[n]

    return TOKEN.sub(one, text)


def clauses(text, names):
    """A source file: ghost use lines, clauses, ghost items."""
    out, deep = [], 0
    for line in text.split("\n"):
        inside = deep > 0 or re.match(r"\s*(ghost use|requires|ensures|ghost)\b", line)
        if inside:
            code = line.split("//")[0]
            if not line.lstrip().startswith("ghost use"):
                deep += code.count("{") - code.count("}")
            line = turn(line, names, False)
        out.append(line)
    return "\n".join(out)


def page(text, names):
    return re.sub(r"`[^`\n]+`", lambda m: turn(m[0], names, False), text)


def write(path, old, new):
    if old != new:
        with open(path, "w", encoding="utf-8") as f:
            f.write(new)


def read(path):
    with open(path, encoding="utf-8") as f:
        return f.read()


def main():
    names = table()
    if "--list" in sys.argv:
        for a, b in sorted(names.items()):
            print(a, b)
        return
    for path in list(antt()):
        old = read(path)
        new = old
        crate = path.split("/")[1]
        for word, where in TURNED_ALREADY:
            if where == crate or re.search(r"use Rattle\." + where + r"\.specs\.[^\n]*\b" + word + r"\b", old):
                new = re.sub(r"(?<![A-Za-z0-9_'.-])" + word + r"(?![A-Za-z0-9_'-])", word + "_lem", new)
        write(path, old, turn(new, names, "/proofs/" in path and path.count("/") > 3))
    for path in sorted(glob.glob("crates/*/src/**/*.rt", recursive=True)):
        old = read(path)
        write(path, old, clauses(old, names))
    for path in sorted(glob.glob("docs/*.md") + ["README.md"] + glob.glob("oracle/*.md") + glob.glob("demo/*.md")):
        if os.path.basename(path) == "PORT.md":
            continue
        old = read(path)
        write(path, old, page(old, names))


if __name__ == "__main__":
    main()
