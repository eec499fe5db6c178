#!/usr/bin/env python3
"""Lists the pairs of parameters, by name and type, that stand together in three signatures of crates/*/src or more.

together.py [REV]: at a commit, or in the working tree.
"""
import itertools
import re
import sys
from collections import defaultdict

from twins import sources


def main():
    pairs = defaultdict(set)
    for path, text in sources(sys.argv[1] if len(sys.argv) > 1 else None):
        for found in re.finditer(r"fn (\w+)[^(]*\(([^{]*?)\)(?: ->|\n|\s*\{|;)", text):
            names = re.findall(r"(\w+): (&?(?:'\w+ )?(?:mut )?\[?\w+)", found.group(2))
            for a, b in itertools.combinations(names, 2):
                pairs[(f"{a[0]}: {a[1]}", f"{b[0]}: {b[1]}")].add(f"{path.split('/')[1]} {found.group(1)}")
    for (a, b), where in sorted(pairs.items(), key=lambda p: (-len(p[1]), p[0])):
        if len(where) >= 3:
            print(f"{len(where)}  {a}  {b}  in {', '.join(sorted(where))}")


main()
