#!/usr/bin/env python3
"""Lists functions of crates/*/src that have one shape: the same body but for names, numbers and texts.

twins.py [REV]: at a commit, or in the working tree.
"""
import re
import subprocess
import sys
from collections import defaultdict

MIN_TOKENS = 12
WORDS = {"as", "break", "else", "false", "fn", "for", "if", "impl", "in", "let", "loop", "match", "mut", "ref", "return",
         "self", "true", "while", "Some", "None", "Ok", "Err"}
TOKEN = re.compile(r"'[a-z_]+\b|\"(?:\\.|[^\"\\])*\"|b?'(?:\\.|[^'\\])'|\w+|[^\w\s]")


def run(*words):
    return subprocess.run(words, capture_output=True, text=True, check=True).stdout


def sources(rev):
    listing = run("git", "ls-tree", "-r", "--name-only", rev, "crates") if rev else run("git", "ls-files", "crates")
    for path in listing.split("\n"):
        if "/src/" in path and path.endswith(".rt") and not path.endswith("sample.rt"):
            yield path, run("git", "show", f"{rev}:{path}") if rev else open(path).read()


def bodies(text):
    """Each function's name, line and body, by the braces on a line of their own or after the signature."""
    for start in re.finditer(r"^( *)(?:pub(?:\(crate\))? )?(?:extern \"C\" )?fn (\w+)", text, re.M):
        indent = start.group(1)
        end = re.compile(r"^" + indent + r"\}", re.M).search(text, start.end())
        if end is None:
            continue
        lines = text[start.end():end.start()].split("\n")
        code = [l for l in lines if not re.match(r" *(ensures|requires|//)", l)]
        brace = next((i for i, l in enumerate(code) if l.strip() == "{" or l.rstrip().endswith("{")), None)
        if brace is not None:
            yield start.group(2), text[:start.start()].count("\n") + 1, "\n".join(code[brace + 1:])


def shape(body):
    body = re.sub(r",(\s*[)\]}])", r"\1", body)
    return " ".join(t if t in WORDS or not re.match(r"[\w\"']", t) else "_" for t in TOKEN.findall(body))


def main():
    groups = defaultdict(list)
    for path, text in sources(sys.argv[1] if len(sys.argv) > 1 else None):
        for name, line, body in bodies(text):
            form = shape(body)
            if len(form.split()) >= MIN_TOKENS:
                groups[form].append(f"{path}:{line} {name}")
    twins = sorted(g for g in groups.values() if len(g) > 1)
    for group in twins:
        print("  ".join(group))
    print(f"{len(twins)} groups, {sum(map(len, twins))} functions")


if __name__ == "__main__":
    main()
