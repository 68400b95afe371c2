#!/usr/bin/env python3
"""Prints the facts that stand in the `requires` of three functions or more of one crate, with the functions.

Names of buffers are taken as one (`length s`), and so are `self` and `t`. Run at the top of the repository.
"""
import collections
import glob
import re

PARTS = re.compile(r"\bfn (\w+)|requires(?: \w+)? \{((?:[^{}]|\n)*)\}")
found = collections.defaultdict(list)
for path in sorted(glob.glob("crates/*/src/**/*.rt", recursive=True)):
    crate, function = path.split("/")[1], ""
    for name, clause in PARTS.findall(open(path, encoding="utf-8").read()):
        if name:
            function = name
            continue
        for fact in re.split(r"\s×\s", clause):
            fact = " ".join(fact.split())
            if fact.startswith("(") and fact.endswith(")"):
                fact = fact[1:-1]
            fact = re.sub(r"\bself\b", "t", fact)
            fact = re.sub(r"\blength \w+\.(now|old)", "length s", fact)
            if function not in found[f"{crate}: {fact}"]:
                found[f"{crate}: {fact}"].append(function)
for fact, functions in sorted(found.items(), key=lambda x: -len(x[1])):
    if len(functions) > 2:
        print(len(functions), fact, "|", " ".join(functions))
