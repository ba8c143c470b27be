#!/usr/bin/env python3
"""page.py MODULE.wasm OUT.html: writes the page, with the module, the lessons and the examples in
it. The same files give the same bytes."""
import base64
import glob
import gzip
import json
import os
import sys

HERE = os.path.dirname(os.path.abspath(__file__))
EXAMPLES = os.path.join(HERE, "..", "crates", "mcs_test_examples", "data")
# what the menu has, in its order: a group, and its files
GROUPS = [
    ("Lessons", HERE, "lessons/*.plan"),
    ("Gallery", EXAMPLES, "gallery/*.plan"),
    ("Programs", EXAMPLES, "programs/*.plan"),
    ("Microkit", EXAMPLES, "microkit/*.plan"),
    ("Explore", EXAMPLES, "explore/*.plan"),
    ("Explore", EXAMPLES, "explore/d*.mcs"),
    ("Scripts", EXAMPLES, "*.mcs"),
]
# a script of `mcssim run` on its own says nothing to a page
LEFT_OUT = {"two-cores.mcs", "suspended-in-time.mcs", "disk-log.mcs", "disk-log-end.mcs"}


def read(path):
    with open(path, encoding="utf-8") as file:
        return file.read()


def examples():
    groups = {}
    for group, folder, pattern in GROUPS:
        for path in sorted(glob.glob(os.path.join(folder, pattern))):
            name = os.path.basename(path)
            if name not in LEFT_OUT:
                groups.setdefault(group, []).append({"name": name, "text": read(path)})
    return groups


def main():
    with open(sys.argv[1], "rb") as file:
        module = base64.b64encode(gzip.compress(file.read(), 9, mtime=0)).decode()
    data = {"module": module, "examples": examples(), "first": "Gallery/nested-calls.plan"}
    page = read(os.path.join(HERE, "page.html"))
    # in a script element only `</` could end it
    parts = {"@data@": json.dumps(data, sort_keys=True).replace("</", "<\\/")}
    for name in ("page.css", "engine.js", "worker.js", "page.js"):
        parts[f"@{name}@"] = read(os.path.join(HERE, name))
    for mark, text in parts.items():
        before, behind = page.split(mark)
        page = before + text.rstrip("\n") + behind
    with open(sys.argv[2], "w", encoding="utf-8") as file:
        file.write(page)


main()
