#!/usr/bin/env python3
"""Looks at the words of comments and documents; nothing has to be built before.

(a) Lines of more than 100 columns: comments of .rt and .antt files, and text of .md files. Left out are tables, URLs, what a
    program wrote (blocks between ```), controls (*.control.md, which are code) and crates/*/data. Code is the formatter's.
(b) Doc comments of functions that change something and do not begin with a verb, as `Sets`. Such a function has a `&mut`
    parameter, or returns nothing or `Result<(), ..>`. Left out are laws, whose body is `{}`, and functions without a comment.
(c) Words in backquotes of each README.md, CONTRIBUTING.md and docs/*.md that are no word of the sources and no file.

Prints each with its file and line, then how many there are. Exits with 1 where there is any of (a) or (c), or 20 of (b) or more.
"""
import os
import re
import sys
from pathlib import Path

ROOT = Path(__file__).resolve().parent.parent
COLUMNS = 100
VERBLESS = 20

# They end in s, and are no verbs at the head of a comment.
NOUNS = set("""Address Addresses Always As Bits Bytes Capabilities Contexts Fields Is Its Likeness Messages Objects
Others Pages Rights Slots Spaces Status Texts This Those Threads Thus Unless Users Was Whose Words""".split())

# Words in backquotes that the sources need not have, each with its reason.
EXCEPTIONS = {
    "antt": "the suffix of specifications and proofs",
    "end1": "a script that `mcslab explore` writes, as the next two",
    "question14": "",
    "stuck1": "",
    "m5000000": "the name of a message that no small script sends",
}

# After these a span has the words of another program; of them only paths are looked for.
COMMANDS = {"rt", "rattle-kit-13b", "rattle-kit-13f", "git", "sh", "python3", "install", "valgrind", "grep", "head", "cat", "wc", "cd"}


def files():
    """The files of the repository, without what a run leaves in `out` and in hidden folders."""
    found = []
    for top, folders, names in os.walk(ROOT):
        folders[:] = sorted(it for it in folders if it not in ("out", "__pycache__") and not it.startswith("."))
        found += [Path(top, name).relative_to(ROOT) for name in sorted(names)]
    return [path for path in found if (ROOT / path).is_file()]


def lines_of(path):
    return (ROOT / path).read_text(encoding="utf-8").split("\n")


def is_data(path):
    if path.name == "README.md":
        return False
    return re.match(r"crates/[^/]+/data/", str(path)) or path.name.endswith(".control.md")


def long_lines(paths):
    for path in paths:
        if path.suffix not in (".rt", ".antt", ".md") or is_data(path):
            continue
        fenced = False
        for number, line in enumerate(lines_of(path), 1):
            text = line.strip()
            fenced ^= path.suffix == ".md" and text.startswith("```")
            if len(line) <= COLUMNS or "://" in line:
                continue
            if path.suffix == ".md":
                is_text = not fenced and not text.startswith("|")
            else:
                is_text = text.startswith("//" if path.suffix == ".rt" else "--")
            if is_text:
                yield f"{path}:{number}: {len(line)} columns"


# The head of a function, up to its first clause or its body, and the line behind that head.
def head_from(lines, at):
    head = []
    while at < len(lines):
        text = lines[at].strip()
        if head and re.match(r"(requires|ensures|ghost|decreases|\{)", text):
            break
        head.append(text)
        at += 1
        if text.endswith(("{", ";", "{}")):
            break
    return " ".join(head), at


def is_law(lines, head, at):
    if head.endswith("{}"):
        return True
    while at < len(lines) and lines[at].strip():
        if lines[at].strip() == "{}":
            return True
        if head.endswith("{") or lines[at].strip() == "{":
            return False
        at += 1
    return False


def changes(head):
    result = re.search(r"->\s*(.*?)\s*[{;]?$", head)
    return "&mut " in head or not result or result.group(1).startswith("Result<(),")


def doc_above(lines, at):
    while at >= 0 and re.match(r"\s*(#\[|//(?!/))", lines[at]):
        at -= 1
    doc = []
    while at >= 0 and lines[at].strip().startswith("///"):
        doc.insert(0, lines[at].strip()[3:].strip())
        at -= 1
    return doc, at + 2


def is_verb(word):
    return re.fullmatch(r"[A-Z][a-z]+s", word) and word not in NOUNS


def verbless(paths):
    for path in paths:
        if path.suffix != ".rt" or is_data(path):
            continue
        lines = lines_of(path)
        for at, line in enumerate(lines):
            if not re.match(r"\s*(pub(\([a-z]+\))? )?(const )?fn \w+", line):
                continue
            doc, number = doc_above(lines, at - 1)
            head, behind = head_from(lines, at)
            if not doc or not changes(head) or is_law(lines, head, behind):
                continue
            if not is_verb(doc[0].split(" ")[0].rstrip(",:.;")):
                yield f"{path}:{number}: {doc[0]}"


def is_named(path, names):
    return any(name == path or name.endswith("/" + path) or f"/{name}/".find(f"/{path}/") >= 0 for name in names)


def unknown(paths):
    names = [str(path) for path in paths]
    sources = [path for path in paths if path.suffix in (".rt", ".antt", ".sh", ".py", ".mjs", ".c", ".h", ".mcs", ".plan")]
    text = "\n".join("\n".join(lines_of(path)) for path in sources + [Path("crates.txt")] if path.name != "words.py")
    known = set(re.findall(r"[A-Za-z_][A-Za-z0-9_]*", text)) | {path.stem for path in paths} | set(EXCEPTIONS)
    is_page = re.compile(r"(?:.*/)?(?:README|CONTRIBUTING)\.md|docs/[^/]+\.md")
    pages = [path for path in paths if is_page.fullmatch(str(path))]
    for page in pages:
        whole = re.sub(r"^```.*?^```", lambda block: "\n" * block.group().count("\n"), "\n".join(lines_of(page)), flags=re.M | re.S)
        for span in re.finditer(r"`([^`]+)`", whole):
            number = whole.count("\n", 0, span.start()) + 1
            said = span.group(1).split()
            if said[0] in COMMANDS:
                said = [word for word in said[1:] if "/" in word]
            for word in said:
                path = word.strip(",;:()").rstrip("/")
                if "/" in path or re.search(r"\.(rt|antt|md|txt|sh|py|mcs|plan|svg|edit)$", path):
                    if is_named(path, names) or is_named(path + ".antt", names):
                        continue
                # a word of capitals alone stands for another, as NAME
                for part in re.findall(r"[A-Za-z_][A-Za-z0-9_]*", word):
                    if part not in known and not re.fullmatch("[A-Z]+", part):
                        yield f"{page}:{number}: `{span.group(1)}`: {part}"


def main():
    paths = files()
    found = [list(long_lines(paths)), list(verbless(paths)), list(unknown(paths))]
    for each in found:
        print("\n".join(each), end="\n" if each else "")
    said = ["lines of more than 100 columns", "comments without a verb", "words that are no words of the sources"]
    for each, what in zip(found, said):
        print(f"{len(each)} {what}")
    return 1 if found[0] or found[2] or VERBLESS <= len(found[1]) else 0


sys.exit(main())
