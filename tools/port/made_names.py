#!/usr/bin/env python3
"""In the answers of functions, a name that Rattle makes keeps the spelling of the code's names: `strip-prefix` is `strip_prefix` again.

usage: tools/port/made_names.py     at the top of a checkout, after respell.py
"""
import os
import re

NAME = re.compile(r"(?<!\w)[^\W\d][\w'\-]*", re.UNICODE)
FIXED = [("invariant-of-", "invariant_of-")]


def main():
    changed = 0
    for crate in sorted(os.listdir("crates")):
        words = set()
        for folder, dirs, names in os.walk(os.path.join("crates", crate, "src")):
            for f in names:
                with open(os.path.join(folder, f), encoding="utf-8") as it:
                    words |= set(re.findall(r"\b[a-z][a-z0-9]*(?:_[a-z0-9]+)+\b", it.read()))
        turns = [(re.compile(r"(?<![^\-+])" + re.escape(w.replace("_", "-")) + r"(?![^\-+])"), w) for w in sorted(words, key=len, reverse=True)]

        def word(m):
            name = m.group(0)
            if "-" in name:
                for old, new in FIXED:
                    name = name.replace(old, new)
                for old, new in turns:
                    name = old.sub(new, name)
            return name

        for folder, dirs, names in os.walk(os.path.join("crates", crate, "proofs")):
            for f in names:
                if f not in ("Answers.antt", "Invariants.antt"):
                    continue
                path = os.path.join(folder, f)
                with open(path, encoding="utf-8") as it:
                    old = it.read()
                new = "\n".join(l if re.match(r"\s*use Rattle\.(std|core|logic)", l) else NAME.sub(word, l) for l in old.split("\n"))
                if new != old:
                    with open(path, "w", encoding="utf-8") as it:
                        it.write(new)
                    changed += 1
    print(f"made_names: {changed} files")


if __name__ == "__main__":
    main()
