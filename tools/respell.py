#!/usr/bin/env python3
"""Spells the names of this repository's definitions and lemmas as the library of Rattle does: words of a name in snake case,
types and facts in camel case. It went over the tree once, after the port of its spelling (docs/PORT.md).

usage: respell.py [--check]     run at the top of the repository; --check writes nothing

A name turns if a file of specs/ or proofs/ declares it, at any depth: a definition, a lemma, a field, a constructor, a local of a
`where`. A capital begins a word (`ldRrNn` is `ld_rr_nn`, `exHL` is `ex_h_l`) and a dash is an underscore. What stays: the names that
Rattle makes (answers of goals, `.. -spec`), functions and types of src/, strings, and comments but for words with a capital inside.
Names that would fall together in a file are printed, and the exit status is 1.
"""

import glob
import re
import sys

TOKEN = re.compile(r"[^\s(){}\[\];,.\"«»λ→×∷⊎]+")
DECLARED = re.compile(r"^\s*(?:(?:abbrev|unfoldable|pub|data|record)\s+)*([^\s:(){}]+)(?: +[({][^:]*:[^)}]*[)}])* : ")
MADE_TYPE = re.compile(r" : (?:tie|goal)\.")
QUIET = re.compile(r'"(?:[^"\\\n]|\\.)*"|--[^\n]*|//[^\n]*')

# names whose capitals do not each begin a word; types; lemmas that would have their definition's name
BY_HAND = {
    "keepSZV": "keep_szv",
    "getD-change": "get_or_change",
    "Going-on": "GoingOn",
    "Lead-by": "LeadBy",
    "add-flags": "add_flags_lem",
    "sub-flags": "sub_flags_lem",
    "all-le": "all_le_lem",
    "word-in": "word_in_lem",
    "stop-handed": "stop_handed_lem",
    "lent-tests": "lent_tests_lem",
    "write-tests": "write_tests_lem",
    "deliver-tests": "deliver_tests_lem",
    "valid-tests": "valid_tests_lem",
}

# fields beside a definition of the same name
IN_THEOREMS = {"make-valid": "making_valid", "read-form": "reading_form", "write-form": "writing_form"}


def snake(name):
    if name in BY_HAND:
        return BY_HAND[name]
    return re.sub(r"(?<=.)[A-Z]", lambda up: "_" + up[0].lower(), name).replace("-", "_").replace("__", "_")


def files(kinds):
    return sorted(f for kind in kinds for f in glob.glob(f"crates/*/{kind}", recursive=True) if "/out/" not in f)


def declared():
    """Name of each declaration that does not read as the library's do, with its new spelling."""
    names = {}
    for file in files(["specs/**/*.antt", "proofs/**/*.antt"]):
        for line in open(file):
            found = DECLARED.match(line)
            if not found or line.lstrip().startswith("--") or MADE_TYPE.search(line):
                continue
            name = found[1]
            if name.endswith("-spec") or "·" in name or "◌" in name or not re.match(r"[A-Za-z]", name):
                continue
            if name[0].isupper() and name not in BY_HAND:
                continue
            if snake(name) != name:
                names[name] = snake(name)
    return names


def turned(text, names, after_dot):
    """The text with each name turned; in a comment only names with a capital inside."""

    def word(quiet):
        def one(found):
            name = found[0]
            before = text_of[found.start() - 1 : found.start()]
            if name not in names or (before == "." and name not in after_dot):
                return name
            if quiet and not re.search("[a-z][A-Z]", name):
                return name
            return names[name]

        return one

    out, at = [], 0
    for quiet in QUIET.finditer(text):
        text_of = text[at : quiet.start()]
        out.append(TOKEN.sub(word(False), text_of))
        text_of = quiet[0]
        out.append(text_of if text_of[0] == '"' else TOKEN.sub(word(True), text_of))
        at = quiet.end()
    text_of = text[at:]
    out.append(TOKEN.sub(word(False), text_of))
    return "".join(out)


def fields():
    """Fields of the records in specs/ and proofs/, which turn behind a dot."""
    found = set()
    for file in files(["specs/**/*.antt", "proofs/**/*.antt"]):
        inside = None
        for line in open(file):
            head = re.match(r"^(\s*)(?:pub )?record .* where", line)
            if head:
                inside = len(head[1])
                continue
            deep = len(line) - len(line.lstrip())
            if inside is not None and line.strip() and deep <= inside:
                inside = None
            field = re.match(r"\s+pub ([^\s:]+) : ", line)
            if inside is not None and field:
                found.add(field[1])
    return found


def main():
    names = declared()
    after_dot = fields() & set(names)
    write = "--check" not in sys.argv
    together = 0
    everywhere, everywhere_after_dot = names, after_dot
    for file in files(["specs/**/*.antt", "proofs/**/*.antt", "src/**/*.rt"]):
        text = open(file).read()
        here = file.startswith("crates/theorems/")
        names = everywhere | (IN_THEOREMS if here else {})
        after_dot = everywhere_after_dot | set(IN_THEOREMS if here else ())
        code = QUIET.sub("", text)
        words = {word[0] for word in TOKEN.finditer(code) if code[word.start() - 1 : word.start()] != "."}
        functions = set(re.findall(r"\bfn (\w+)", code))
        for old in sorted(words & set(names)):
            if names[old] in words - functions:
                print(f"{file}: {old} and {names[old]} fall together")
                together += 1
        new = turned(text, names, after_dot)
        if new != text and write:
            open(file, "w").write(new)
    print(f"{len(everywhere)} names; fall together: {together}")
    return 1 if together else 0


sys.exit(main())
