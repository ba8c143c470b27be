#!/usr/bin/env python3
"""Looks whether the code has what the documents name; nothing has to be built before.

Reads each README.md, CONTRIBUTING.md and docs/*.md. A word in backquotes counts by its shape; comments are no code.

(a) `mcs_x` (anywhere), `mcslab`, `mcssim`: a crate of crates.txt with a folder in crates/, or a function that C calls.
(b) A path (it has a `/` or a suffix, and `*` stands for anything): a file or a folder. Specifications may lack `.antt`.
(c) `--word`: an option that a program declares, or that a script of tests/ or bench/ reads.
(d) `A::b`: b is a function or a variant in a file that defines or implements A.
(e) `a_b`, `aB` or `a(..)`: a word of the code.
(f) A plain word in the last column of a table, where its head is `clause` or `clauses`: the label of a clause, or a function.

Left out are blocks between ```, but for (a), and the options of other programs. Prints each word that the code does not have, with
its file and line, then how many there are. Exits with 1 where there is any.
"""
import os
import re
import sys
from pathlib import Path

ROOT = Path(__file__).resolve().parent.parent
COMMENTS = {".rt": "//.*", ".antt": "--.*", ".sh": "#.*", ".py": "#.*", ".mjs": "//.*", ".c": "//.*", ".h": "//.*"}
COMMANDS = {"rt", "rattle-kit-13b", "rattle-kit-13f", "git", "sh", "python3", "install", "valgrind", "grep", "head", "cat", "wc", "cd"}
# Scripts that a run or a reader writes, a slot of a plan, a suffix, and a call of the kit.
EXCEPTIONS = "found/end1.mcs end1.mcs stuck1.mcs question14.mcs answer-t3-2-1.mcs files.mcs anna.space/session .antt Mutex::lock"


def read(path):
    return (ROOT / path).read_text(encoding="utf-8")


paths = []
for top, folders, files in os.walk(ROOT):
    folders[:] = [it for it in folders if it not in ("out", "__pycache__", ".git")]
    paths += [Path(top, name).relative_to(ROOT) for name in files]
listed = "\n".join(f"/{path}/\n/examples/{str(path).partition('mcs_test_examples/data/')[2]}/" for path in paths)
code = {path: re.sub(COMMENTS[path.suffix], "", read(path)) for path in paths if path.suffix in COMMENTS and path.name != "names.py"}
whole = "\n".join([*code.values(), read("crates.txt")])
crates = set(re.findall(r"^(\w+)[\w ]*:", read("crates.txt"), re.M))
# What C calls has such names too.
crates |= set(re.findall(r'extern "C" fn (mcs_\w+)', whole))
words = set(re.findall(r"\w+", whole)) | {path.stem for path in paths}
labels = set(re.findall(r"\b(?:fn|ghost|(?:ensures|requires)(?=\s+\w+\s*\{))\s+(\w+)", whole))
# Of each file the names in the heads of its types and traits, and its functions and variants.
HEADS = re.compile(r"^(?:pub(?:\(crate\))? )?(?:impl|trait|struct|enum)\b[^{;]*|\bfn \w+|^    [A-Z]\w+", re.M)
owners = [set(re.findall(r"\w+", " ".join(HEADS.findall(text)))) for path, text in code.items() if path.suffix == ".rt"]


def has(word, is_clause):
    if re.fullmatch(r"mcs_\w+|mcslab|mcssim", word):
        return word in crates
    # NAME and its like stand for another word
    if re.search(r"[\w*]/|\.(rt|antt|md|txt|sh|py|mjs|mcs|plan|svg|edit)$", word) and not re.search(r"\b(NAME|CRATE|FILE|PATH)\b", word):
        return re.search("/" + re.escape(word.rstrip("/")).replace(r"\*", "[^/\n]*") + "(.antt)?/", listed)
    if re.fullmatch(r"--[a-z-]+", word):
        return f'"{word[2:]}"' in whole or word in whole
    if re.fullmatch(r"\w+::\w+", word):
        return any(set(word.split("::")) <= names for names in owners)
    name = re.match(r"(?=\w*(?:_|[a-z][A-Z]|\())(\w+)", word)
    return word in labels if is_clause and re.fullmatch("[a-z]+", word) else not name or name[1] in words


def missing(page):
    head, text = "", re.sub(r"^```.*?^```", lambda block: "\n" * block[0].count("\n"), read(page), flags=re.M | re.S)
    for block in re.finditer(r"^\|.*\n|(?:^[^|\n].*\n)+|^\n", text, re.M):
        cells = block[0].strip(" |\n").split(" | ") if block[0][0] == "|" else [block[0]]
        head = "" if block[0][0] != "|" else head or cells[-1]
        for cell, span in ((cell, it) for cell in cells for it in re.finditer(r"`([^`]+)`", cell)):
            said = span[1].split()
            for word in [word for word in said[1:] if "/" in word] if said[0] in COMMANDS else said:
                word = word.strip(",;:" if "(" in word[1:] else ",;:()")
                if word not in EXCEPTIONS.split() and not has(word, cell is cells[-1] and head in ("clause", "clauses")):
                    yield f"{page}:{text.count(chr(10), 0, block.start()) + 1 + cell.count(chr(10), 0, span.start())}: {word}"


is_page = re.compile(r"(?:.*/)?(?:README|CONTRIBUTING)\.md|docs/[^/]+\.md")
pages = sorted(str(path) for path in paths if is_page.fullmatch(str(path)))
found = [it for page in pages for it in missing(page)]
found += [f"{page}: {it}" for page in pages for it in sorted(set(re.findall(r"\bmcs_\w+", read(page))) - crates)]
print("\n".join(found + [f"{len(found)} names that the code does not have"]))
sys.exit(1 if found else 0)
