#!/usr/bin/env python3
"""Compares what `mcslab` writes as JSON with the schemas of docs/schema:

    python3 tests/schema.py MCSLAB

`json`, `state` and `explore` are given each script and each plan of examples/ and tests/lab that
they read, without and with `--json-strings`; the lines of `json` are a document each. Each schema
has to be one of draft 2020-12, and has to refuse a document with a member that is lost, and with
one more. Each number of 64 bits has to be an integer in all documents without the option, and in
all with it a text of the same number. Needs python3-jsonschema. Exits with 1 where a document is
not as its schema says, or a schema takes no document at all.
"""
import json
import subprocess
import sys
from pathlib import Path

from jsonschema import Draft202012Validator

ROOT = Path(__file__).resolve().parent.parent
SCHEMAS = ("json", "state", "explore")
# what writes numbers of 64 bits as texts, and how the schemas name both forms
STRINGS = "--json-strings"
FORMS = {False: "integer", True: "digits"}
CALLS = (
    ("json", ["json"], (0,)),
    ("state", ["state", "--json"], (0,)),
    ("state", ["state", "--json", "--stuck"], (0, 1)),
    ("explore", ["explore", "--json", "--states", "3000", "--seconds", "20"], (0, 1, 3)),
)


def sources():
    """The scripts and plans that are read, each once."""
    for folder in ("examples", "tests/lab"):
        for path in sorted((ROOT / folder).resolve().rglob("*")):
            if path.parent.name != "faults" and path.suffix in (".mcs", ".plan") and path.stat().st_size < 50_000:
                yield path


def documents(schema, text):
    """The documents of an output: a line each, or one."""
    return [json.loads(line) for line in text.splitlines()] if schema == "json" else [json.loads(text)]


# what a document has only if there is something to say
OPTIONAL = {"name", "names", "rules"}


def changed(document):
    """Documents that no schema may take: one member lost, or one more."""
    for name in document:
        if name not in OPTIONAL:
            yield f"without {name}", {key: value for key, value in document.items() if key != name}
    yield "with one more", {**document, "other": 0}


def narrowed(schema, form):
    """A schema whose numbers of 64 bits all have this form."""
    defs = schema["$defs"]
    if "number" in defs:
        defs = {**defs, "number": {"$ref": f"#/$defs/{form}"}}
    return {**schema, "$defs": defs}


def numbers_of(document):
    """A document with an integer for each text that is a number, and how many these are."""
    if isinstance(document, str) and document.isdecimal():
        return int(document), 1
    if isinstance(document, dict):
        found = {name: numbers_of(value) for name, value in document.items()}
        return {name: value for name, (value, _) in found.items()}, sum(n for _, n in found.values())
    if isinstance(document, list):
        found = [numbers_of(value) for value in document]
        return [value for value, _ in found], sum(n for _, n in found)
    return document, 0


def told(validator, document):
    """Why a document is not as its schema says; nothing where it is."""
    return [f"{error.json_path}: {error.message[:200]}" for error in validator.iter_errors(document)]


def faults_of(validators, document):
    """Why a document is not as its schema says in this form, or which changed one it takes."""
    faults = told(validators["narrow"], document)
    # the schema itself takes each form
    faults += told(validators["both"], document)
    if len(document) > 1:
        for how, other in changed(document):
            if not told(validators["both"], other):
                faults.append(f"is taken {how}")
    return faults


def read(program, schema, words, statuses, path):
    """The documents that a call writes; None where it ends with another status."""
    done = subprocess.run([program, *words, str(path)], capture_output=True, timeout=120)
    return documents(schema, done.stdout) if done.returncode in statuses else None


def compare(validators, call, path, plain, strings):
    """What is wrong with the documents of a call without and with texts; and how many texts there are."""
    schema, words, _ = call
    faults = []
    texts = 0
    for with_texts, found in ((False, plain), (True, strings)):
        kinds = {"both": validators[schema, None], "narrow": validators[schema, with_texts]}
        for number, document in enumerate(found, 1):
            faults += [f"document {number}: {why}" for why in faults_of(kinds, document)]
    if len(plain) != len(strings):
        faults.append(f"other documents with {STRINGS}")
    for number, (one, other) in enumerate(zip(plain, strings), 1):
        (one, before), (other, now) = numbers_of(one), numbers_of(other)
        texts += now - before
        if one != other:
            faults.append(f"document {number}: other values with {STRINGS}")
    return [f"schema: {' '.join(words)} {path.name}: {why}" for why in faults], texts


def main():
    program = sys.argv[1]
    failed = 0
    taken = dict.fromkeys(SCHEMAS, 0)
    texts = dict.fromkeys(SCHEMAS, 0)
    validators = {}
    for name in SCHEMAS:
        schema = json.loads((ROOT / "docs" / "schema" / f"{name}.json").read_text())
        Draft202012Validator.check_schema(schema)
        validators[name, None] = Draft202012Validator(schema)
        for with_texts, form in FORMS.items():
            validators[name, with_texts] = Draft202012Validator(narrowed(schema, form))
    for path in sources():
        for call in CALLS:
            schema, words, statuses = call
            try:
                plain = read(program, schema, words, statuses, path)
                strings = read(program, schema, [*words, STRINGS], statuses, path)
            except ValueError as why:
                print(f"schema: {' '.join(words)} {path.name}: this is no JSON: {why}")
                failed = 1
                continue
            if (plain is None) != (strings is None):
                print(f"schema: {' '.join(words)} {path.name}: another status with {STRINGS}")
                failed = 1
            if plain is None or strings is None:
                continue
            faults, count = compare(validators, call, path, plain, strings)
            taken[schema] += len(plain) + len(strings)
            texts[schema] += count
            for fault in faults:
                print(fault)
                failed = 1
    for schema, count in taken.items():
        print(f"schema: {schema}: {count} documents, {texts[schema]} numbers as texts")
        failed = failed or count == 0 or (texts[schema] == 0) != (schema == "explore")
    return int(failed)


if __name__ == "__main__":
    sys.exit(main())
