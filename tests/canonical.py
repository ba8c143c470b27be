#!/usr/bin/env python3
"""Tries wrong bodies of canonical keys, which no proof refuses.

    python3 tests/canonical.py [NAME..]   tries tests/canonical/NAME.edit, or all

An edit has the form of must-fail edits, and changes a file of crates/mcs_explore_keys. It is
applied to a copy of the tree. `rt try` builds `mcslab` there, unproved (100 seconds of a processor),
which explores the scripts of users that make objects that the gate explores: those that are listed
in `orders.rt`, and those of `random.txt`.

A script sees an edit where its ends, answers or verdicts are not those with --exact, or its number
of states is not that of the gate's record. With --exact nothing is run that an edit changes, so
only the unedited program is run with it. Exits with 0 where a script sees each edit, and none the
unedited program.
"""
import re
import shutil
import subprocess
import sys
import tempfile
from pathlib import Path

ROOT = Path(__file__).resolve().parent.parent
EDITS = ROOT / "tests/canonical"
CRATE = "crates/mcs_explore_keys"
EXAMPLES = ROOT / "crates/mcs_test_examples"
DATA = EXAMPLES / "data/explore"


def scripts():
    """The scripts of users that make objects, by their names."""
    source = (EXAMPLES / "src/orders.rt").read_text()
    listed = "".join(re.findall(r"const (?:SCRIPTS|MADE):.*?\];", source, re.S))
    found = {name: (DATA / name).read_text() for name in re.findall(r'"explore/(\S+)"', listed)}
    boot, *parts = (DATA / "random.txt").read_text().split("%\n")
    found |= {f"random-{number}": boot + users for number, users in enumerate(parts, 1)}
    return {name: text for name, text in found.items() if re.search(r"^user \w+ make ", text, re.M)}


def recorded():
    """The line with the number of states that the gate wants of each script that it records."""
    return dict(re.findall(r"^# explore/(\S+)\n(.*)$", (EXAMPLES / "stdout").read_text(), re.M))


def apply(edit, crate):
    """Applies an edit to a crate: each text stands once in its file."""
    file, old = None, None
    for line in edit.read_text().splitlines():
        word, _, text = line.partition(": ")
        if word == "file":
            file = crate / text
        elif word == "old":
            old = text
        elif word == "new":
            if file.read_text().count(old) != 1:
                sys.exit(f"{edit.name}: this does not stand once in {file.name}: {old}")
            file.write_text(file.read_text().replace(old, text))


def explore(edit, cases):
    """The reports on these cases, each a script and the arguments, of a tree with an edit."""
    with tempfile.TemporaryDirectory(prefix="canonical-") as folder:
        tree, put = Path(folder, "tree"), Path(folder, "cases")
        shutil.copytree(ROOT / "crates", tree / "crates", ignore=shutil.ignore_patterns("out"))
        for name in ("crates.txt", "HANDLES"):
            shutil.copy(ROOT / name, tree)
        if edit:
            apply(edit, tree / CRATE)
        put.mkdir()
        for name, (text, arguments) in cases.items():
            (put / name).write_text(text)
            if arguments:
                (put / f"{name}.args").write_text(arguments)
        words = ["rt", "try", "--cases", str(put), "--", "explore"]
        done = subprocess.run(words, cwd=tree / "crates/mcslab", capture_output=True, text=True)
        reports = dict(re.findall(r"^== (\S+)\n(.*?)(?=^== |\Z)", done.stdout, re.M | re.S))
        if not reports:
            sys.exit(f"{edit.name if edit else 'unedited'}: nothing was run\n{done.stderr[-2000:]}")
        return {name: reports.get(name, "no report\n").splitlines() for name in cases}


def compared(report):
    """The kinds of ends, by slots and without numbers, and the other lines behind the first."""
    text = re.sub(r"^end \d+: (.*?),.*$", r"end: \1", "\n".join(report[1:]), flags=re.M)
    return set(re.split(r"\n(?! )", re.sub(r"\b[a-z]\d+(\S*) \(slot", r"\1 (slot", text)))


def numbers(report):
    """The numbers of states, turns, depth and ends of a report."""
    return ", ".join(report[0].split(", ")[:4])


def main():
    edits = [EDITS / f"{name}.edit" for name in sys.argv[1:]] or sorted(EDITS.glob("*.edit"))
    texts = scripts()
    cases = {name: (text, "") for name, text in texts.items()}
    right = explore(None, cases | {f"exact-{name}": (text, "--exact\n") for name, text in texts.items()})
    exact = {name: compared(right[f"exact-{name}"]) for name in texts}
    record = recorded()

    def sees(name, report):
        return compared(report) != exact[name] or report[0] != record.get(name, report[0])

    fails = [name for name in texts if sees(name, right[name])]
    print(f"unedited: {len(texts)} scripts, seen by {' '.join(fails) or 'none'}", flush=True)
    for edit in edits:
        told = explore(edit, cases)
        by = [name for name in texts if sees(name, told[name])]
        print(f"{edit.stem}: seen by {len(by)} scripts")
        for name in by[:4]:
            print(f"  {name}: {numbers(right[name])} -> {numbers(told[name])}", flush=True)
        if not by:
            fails.append(edit.stem)
    return 1 if fails else 0


sys.exit(main())
