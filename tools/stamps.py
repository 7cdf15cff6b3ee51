#!/usr/bin/env python3
"""stamps.py [NAME ..]: the stamp of each crate that has edits (or of these), as edits/tried.txt has it: one sum over all that decides
whether the edits of edits/NAME are refused. That is the crate's own src, specs and proofs, its edits, and the contracts of the crates that
it names in crates.txt: their specs, and of their src what stands outside of bodies. Comments and blank lines count nowhere."""
import hashlib
import os
import re
import sys

PARTS = ("src", "specs", "proofs")


def names_of(crates_txt):
    """The crates that each crate names."""
    named = {}
    for line in crates_txt.splitlines():
        line = line.split("#")[0]
        if re.match(r"[a-z_0-9]+", line) and ":" in line:
            head, names = line.split(":", 1)
            named[head.split()[0]] = names.split()
    return named


def plain(path, text):
    """The lines of a file that aren't comments. The words in front of a crate's lines of Rattle mark a comment by //, those of Antt by --."""
    mark = "//" if path.endswith(".rt") else "--"
    return [line.rstrip() for line in text.splitlines() if line.strip() and not line.strip().startswith(mark)]


def contracts(lines):
    """The lines of a source that stand outside of function bodies. rt fmt puts a body's end under the line that its function begins on."""
    kept, end, depth = [], None, None
    for line in lines:
        indent = len(line) - len(line.lstrip())
        if end is not None:
            if indent == depth and line.strip() == "}":
                end = None
            continue
        begins = re.match(r" *(pub(\([a-z]+\))? )?(ghost )?fn ", line)
        if begins:
            depth = indent
        kept.append(line)
        if depth is not None and (begins or indent >= depth) and line.endswith("{"):
            # The body begins where a function's head, or its last clause, ends.
            if line.strip() == "{" and indent == depth or begins and line.endswith(" {"):
                end = depth
                depth = indent if line.strip() == "{" else depth
        elif depth is not None and (line.endswith(";") or line.endswith("}")) and indent == depth:
            depth = None
    return kept


def stamp_of(name, named, files, read):
    """`files` are all paths of the tree, `read` gives the text of one."""
    said = []

    def add(path, lines):
        said.append(path + "\n" + "\n".join(lines) + "\n")

    for path in files:
        parts = path.split("/")
        if parts[0] == "edits" and parts[1] == name and path.endswith(".edit"):
            add(path, read(path).splitlines())
        if parts[0] != "crates" or len(parts) < 4 or parts[2] not in PARTS:
            continue
        if parts[1] == name:
            add(path, plain(path, read(path)))
        elif parts[1] in named.get(name, ()):
            if parts[2] == "specs":
                add(path, plain(path, read(path)))
            elif parts[2] == "src":
                add(path, contracts(plain(path, read(path))))
    return hashlib.sha256("".join(sorted(said)).encode()).hexdigest()


def main():
    top = os.path.dirname(os.path.dirname(os.path.abspath(__file__)))
    os.chdir(top)
    named = names_of(open("crates.txt").read())
    files = []
    for root in ("crates", "edits"):
        for folder, folders, found in os.walk(root):
            folders[:] = [f for f in folders if f not in ("out", "must-fail")]
            files += [f"{folder}/{name}" for name in found]
    names = sys.argv[1:] or sorted(os.listdir("edits"))
    kept = {}

    def read(path):
        if path not in kept:
            kept[path] = open(path, encoding="utf-8").read()
        return kept[path]

    for name in names:
        if os.path.isdir(f"edits/{name}"):
            print(name, stamp_of(name, named, files, read))


if __name__ == "__main__":
    main()
