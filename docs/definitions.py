#!/usr/bin/env python3
"""Writes docs/DEFINITIONS.md: the definitions that the contracts of the public calls named below cite, lowest crate first.

Run it at the top of the repository: python3 docs/definitions.py
"""
import os
import re
import sys

# the calls whose contracts a reader has to understand: what the program runs, what it is made of, and the laws of its definitions
ROOTS = [
    ("ice_run", "run"),
    ("ice_run", "image_of"),
    ("ice_run", "broken_cubes_stay_broken"),
    ("ice_headline", None),
    ("ice_volume", None),
    ("ice_cube", None),
    ("ice_look", None),
    ("ice_tree", None),
    ("ice_check", None),
    ("ice_rules", None),
    ("ice_tables", None),
    ("ice_images", None),
    ("ice_reads", None),
]

HEAD = re.compile(r"^(?:abbrev pub|unfoldable pub|pub record|pub data)\s+(\S+)")
GROUP = re.compile(r"^(?:abbrev |unfoldable )?(?:mutual|module)\b")
INNER = re.compile(r"^\s+(?:abbrev |unfoldable )?pub (?:record |data )?(\S+)\s+:")
WORD = re.compile(r"[^\s(){},;.:]+")


def crates():
    """The crates in the order of crates.txt."""
    for line in open("crates.txt", encoding="utf-8"):
        if ":" in line and not line.startswith("#"):
            yield line.split(":")[0].split()[0]


def definitions(crate):
    """(file, name, text) of each definition in the specs/ of a crate: its comment, its signature and its equations."""
    folder = f"crates/{crate}/specs"
    if not os.path.isdir(folder):
        return
    for file in sorted(os.listdir(folder)):
        if not file.endswith(".antt") or file == "Lib.antt":
            continue
        text = open(f"{folder}/{file}", encoding="utf-8").read()
        # an indented line goes on with what stands above it, also past a blank line
        for block in re.split(r"\n\n+(?=\S)", text):
            lines = block.strip("\n").split("\n")
            inner = any(GROUP.match(line) for line in lines)
            names = [found.group(1) for line in lines for found in [HEAD.match(line) or (inner and INNER.match(line))] if found]
            for name in names:
                yield file[:-5], name, "\n".join(lines)


def imports(text):
    """The names that a file brings in, each with the crate and the module of specs/ that it comes from."""
    brought = {}
    for crate, module, names in re.findall(r"use Rattle\.(\w+)\.specs\.(\w+)\.\{([^}]*)\}", text):
        for name in names.split(","):
            parts = name.split(" as ")
            brought[parts[-1].strip()] = (crate, module, parts[0].strip())
    return brought


def clauses(crate, wanted):
    """The clauses of the public functions of a crate, or of one of them, with the names that their files bring in."""
    for folder, _, files in os.walk(f"crates/{crate}/src"):
        for file in sorted(files):
            text = open(f"{folder}/{file}", encoding="utf-8").read()
            for found in re.finditer(r"^pub fn (\w+)(.*?)^\{", text, re.M | re.S):
                if wanted is None or found.group(1) == wanted:
                    yield found.group(2), imports(text)


def main():
    order = list(crates())
    known, files = {}, {}
    for crate in order:
        for module, name, text in definitions(crate):
            known[(crate, module, name)] = text
    for crate, module, _ in known:
        path = f"crates/{crate}/specs/{module}.antt"
        files[(crate, module)] = imports(open(path, encoding="utf-8").read())
    reached, left = set(), []

    def cite(text, brought, here):
        for word in set(WORD.findall(text)):
            for key in (brought.get(word), here and (here[0], here[1], word)):
                if key in known and key not in reached:
                    reached.add(key)
                    left.append(key)

    for crate, wanted in ROOTS:
        for text, brought in clauses(crate, wanted):
            cite(text, brought, None)
    while left:
        key = left.pop()
        cite(known[key], files[key[:2]], key[:2])

    out = ["# The definitions that a reader has to believe", ""]
    out += ["What the contracts of `run`, of the commands of a tree, of the checker and of the laws say is said in these words, lowest crate first."]
    out += ["Each stands as in its file; `docs/definitions.py` writes this page. docs/PROMISES.md has the theorems."]
    for crate in order:
        part = [key for key in known if key[0] == crate and key in reached]
        for module in sorted({key[1] for key in part}):
            first = open(f"crates/{crate}/specs/{module}.antt", encoding="utf-8").readline()
            out += ["", f"## {crate}, {module}", "", first.lstrip("- ").strip(), "", "```antt"]
            texts = dict.fromkeys(known[key] for key in part if key[1] == module)
            out += ["\n\n".join(texts), "```"]
    text = "\n".join(out) + "\n"
    open("docs/DEFINITIONS.md", "w", encoding="utf-8").write(text)
    print(f"{len(reached)} definitions, {text.count(chr(10))} lines", file=sys.stderr)


main()
