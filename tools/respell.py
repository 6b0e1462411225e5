#!/usr/bin/env python3
"""Brings the repository's own definitions and lemmas to today's spelling, after the toolchain's own script has run.

usage: python3 tools/respell.py        at the top of the repository, once

Words are in snake case, types and modules in camel case; in a lemma's name a dash still joins the parts. The names of
functions, fields and types of src/, strings, inputs and outputs stay: only names that a file of specs/ or proofs/
declares are turned, wherever they stand in a word of their own. It stops where two names would fall together.
"""

import collections
import glob
import re
import sys

# Names that would fall together with another, or whose kind asks for more than a change of case.
OWN = {
    "ran_on": "ran_on-keeps",  # the lemma about the definition that is now `ran_on`
    "Cases-hold": "CasesHold",
    "Variants-fail": "VariantsFail",
    "Crash-kept": "CrashKept",
    "Crash-promise": "CrashPromise",
    "Ledger-knows": "LedgerKnows",
    "Size-promise": "SizePromise",
    "Sizes-hold": "SizesHold",
    "Standing-promise": "StandingPromise",
    "Stores-are-sound": "StoresAreSound",
    "Scans-ascend": "ScansAscend",
    "isOk": "is_done",  # std has an `is_ok`
    # names that an import or a lemma gives for itself
    "thePrefix": "the_prefix",
    "theSubset": "the_subset",
    "turnedPage": "turned_page",
}
WORD = re.compile(r"(?<![\w'\"-])[A-Za-z][\w'-]*")
DECLARED = re.compile(r"^\s*(?:(?:abbrev|unfoldable|irrelevant|pub) )*([A-Za-z][\w'-]*) :(?!:)", re.M)
BODY = re.compile(r"^(?:pub )?(record|data) (\S+).*\n((?: +.*\n|\n)*)", re.M)
LABEL = re.compile(r"^  (?:pub )?([A-Za-z][\w'-]*) :", re.M)


def snake(word):
    return re.sub(r"(?<=[a-z0-9])[A-Z]", lambda m: "_" + m[0].lower(), word)


def texts(*endings):
    for ending in endings:
        yield from sorted(f for f in glob.glob("crates/*/**/*" + ending, recursive=True) if "/out/" not in f)


def main():
    declared, labels = collections.defaultdict(set), set()
    for path in texts(".antt"):
        with open(path, encoding="utf-8") as f:
            text = f.read()
        for m in DECLARED.finditer(text):
            declared[m[1]].add(path)
        if "/specs/" in path or path.count("/") == 3:
            for m in BODY.finditer(text):
                labels.update(LABEL.findall(m[3]))
    turned = dict(OWN)
    for name in declared:
        if name in OWN or not name[0].islower():
            continue
        new = snake(name)
        if name in labels:
            new = new.replace("-", "_")
        if new != name:
            turned[name] = new
    for old, new in turned.items():
        others = [n for n in declared if n != old and turned.get(n, n) == new]
        if others:
            sys.exit(f"{old} and {others} would both be {new}")
    count = 0
    for path in texts(".antt", ".rt", ".edit"):
        with open(path, encoding="utf-8") as f:
            text = f.read()
        new = WORD.sub(lambda m: turned.get(m[0], m[0]), text)
        if new != text:
            count += 1
            with open(path, "w", encoding="utf-8") as f:
                f.write(new)
    for old in sorted(turned):
        print(f"{old} -> {turned[old]}")
    print(f"{len(turned)} names, {count} files")


if __name__ == "__main__":
    main()
