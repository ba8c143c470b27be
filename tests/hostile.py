#!/usr/bin/env python3
"""Has each command of `mcslab` read changed inputs, by a fixed generator:

    python3 tests/hostile.py PROGRAM [HOW MANY FOR EACH COMMAND] [SEED]

An input is a script or a plan of examples/ or tests/ with one to four changes: bytes that are
changed, lost or added, words that are exchanged, lines that are doubled, lost or moved, or the end
that is cut off. A call fails if a signal ends it, if it takes more than ten seconds, if its status
is none of the table, or if its standard error has a byte that a terminal obeys. Each input that
fails is kept. Exits with 1 where one fails.
"""
import os
import random
import subprocess
import sys
import tempfile
from concurrent.futures import ThreadPoolExecutor
from pathlib import Path

ROOT = Path(__file__).resolve().parent.parent
STATUSES = {0, 1, 2, 3, 5, 6, 64}
SECONDS = 10
COMMANDS = {
    "check": ["check"],
    "why": ["why"],
    "state": ["state"],
    "state --json": ["state", "--json"],
    "json": ["json"],
    "draw": ["draw"],
    "draw --format html": ["draw", "--format", "html"],
    "draw --format mermaid": ["draw", "--format", "mermaid"],
    "explore": ["explore", "--states", "500", "--seconds", "5"],
    "graph": ["graph", "--states", "500"],
    "graph --dot": ["graph", "--dot"],
    "walk": ["walk", "--turns", "200"],
    "compile": ["compile"],
    "names": ["names", "-"],
}
ODD = [b"\x00", b"\x07", b"\x1b[31m", b"\t", b"\r", b"  ", b"\xff", b"\xef\xbb\xbf", "\u202e".encode(), b"#", b"? ", b"#? ", b"#! ",
       b"#@ ", b"18446744073709551616", b"0x", b"-", b"{", b"}", b"\n", b"9" * 4097]


def sources():
    """The scripts and plans to be changed, each with whether it is a plan."""
    found = []
    for folder in ("examples", "tests"):
        for path in sorted((ROOT / folder).resolve().rglob("*")):
            if path.suffix in (".mcs", ".plan") and path.stat().st_size < 20_000:
                found.append((path.read_bytes(), path.suffix == ".plan"))
    return found


def changed(rng, text, words):
    """A text with one change."""
    lines = text.split(b"\n")
    at = rng.randrange(len(lines))
    kind = rng.randrange(9)
    if kind == 0:
        place = rng.randrange(len(text) + 1)
        return text[:place] + bytes([rng.randrange(256)]) + text[place + 1:]
    if kind == 1:
        place = rng.randrange(len(text) + 1)
        return text[:place] + text[place + rng.randrange(1, 4):]
    if kind == 2:
        place = rng.randrange(len(text) + 1)
        return text[:place] + rng.choice(ODD) + text[place:]
    if kind == 3:
        return text[:rng.randrange(len(text) + 1)]
    if kind == 4:
        lines.insert(rng.randrange(len(lines) + 1), lines[at])
    elif kind == 5:
        del lines[at]
    elif kind == 6:
        lines.insert(rng.randrange(len(lines)), lines.pop(at))
    else:
        parts = lines[at].split(b" ")
        parts[rng.randrange(len(parts))] = rng.choice(words)
        lines[at] = b" ".join(parts)
    return b"\n".join(lines)


def is_plain(told):
    """Whether a terminal only shows these bytes."""
    text = told.decode(errors="replace")
    return not any(letter < " " and letter != "\n" or "\x7f" <= letter < "\xa0" or letter == "\u202e" for letter in text)


def fault_of(program, name, is_plan, text):
    """What is wrong with a call; None where nothing is."""
    words = [program, *COMMANDS[name]]
    if is_plan and name not in ("compile", "names"):
        words.append("--plan")
    try:
        done = subprocess.run(words, input=text, capture_output=True, timeout=SECONDS)
    except subprocess.TimeoutExpired:
        return f"more than {SECONDS} seconds"
    if done.returncode not in STATUSES:
        return f"status {done.returncode}"
    return None if is_plain(done.stderr) else "a byte that a terminal obeys"


def main():
    program = os.path.abspath(sys.argv[1])
    count = int(sys.argv[2]) if len(sys.argv) > 2 else 20_000
    rng = random.Random(int(sys.argv[3]) if len(sys.argv) > 3 else 80)
    found = sources()
    words = sorted({word for text, _ in found for word in text.split()})
    kept = Path(tempfile.mkdtemp(prefix="hostile-"))
    failed = 0

    def inputs():
        for _ in range(count):
            text, is_plan = rng.choice(found)
            for _ in range(rng.randrange(1, 5)):
                text = changed(rng, text, words)
            yield is_plan, text

    with ThreadPoolExecutor(os.cpu_count()) as pool:
        for name in COMMANDS:
            tried = list(inputs())
            for (is_plan, text), fault in zip(tried, pool.map(lambda it: fault_of(program, name, *it), tried)):
                if fault:
                    failed += 1
                    path = kept / f"{failed}{'.plan' if is_plan else '.mcs'}"
                    path.write_bytes(text)
                    print(f"{name}: {fault}: {path}")
            print(f"{name}: {len(tried)} changed inputs", flush=True)
    if not failed:
        kept.rmdir()
    return 1 if failed else 0


sys.exit(main())
