#!/usr/bin/env python3
"""Brings the repository's own definitions and lemmas to today's spelling: words in snake case, types in camel case.

usage: tools/port/respell.py [--list]      at the top of a checkout in which port.py has run; --list only prints the pairs

It rewrites crates/*/specs, crates/*/proofs and the clauses of crates/*/src. Names of the code, names that Rattle makes, strings
and comments stay. Two names that would become one, or one that a file knows already, stop it: OVERRIDES says what to write.
"""
import collections
import os
import re
import sys

TOP = "crates"
# an identifier of the logic; a dash joins parts
NAME = re.compile(r"(?<!\w)[^\W\d][\w'\-]*", re.UNICODE)
DECLARED = re.compile(r"^(\s*)(?:(?:abbrev|unfoldable|pub)\s+)*([^\W\d][\w'\-]*)((?:\s*(?:\([^()]*\)|\{[^{}]*\}))*)\s*:(?:\s(.*))?$")
TYPE = re.compile(r"^\s*(?:pub\s+)?(?:data|record)\s+([^\W\d][\w'\-]*)")
# names that would fall together: a lemma beside the definition that it speaks of, and a definition beside the function of the code
# that it says the answer of
LEMMAS = (
    "came-round evict-main evict-tail holds-node is-main main-out promote-tail seated-in sweep-from tail-evicted tail-out to-main"
).split()
MIRRORS = "isName key-at passedUp reserve-answer saysDone saysFetched saysFound saysIf saysPlaced writeAt".split()
OVERRIDES = {n: re.sub(r"(?<=[a-z0-9])(?=[A-Z])", "_", n).replace("-", "_").lower() + "_lem" for n in LEMMAS + MIRRORS}
# the same where port.py has respelled the lemma already
SCOPED = {"crates/machine_laws/proofs": {"in_place": "in_place_lem"}, "crates/links/proofs/Laid.antt": {"home_of": "home_of_lem"}}


def files(kind):
    for folder, dirs, names in os.walk(TOP):
        dirs[:] = sorted(d for d in dirs if d not in ("out", "must-fail", "data"))
        for f in sorted(names):
            if f.endswith(kind):
                yield os.path.join(folder, f)


def read(path):
    with open(path, encoding="utf-8") as f:
        return f.read()


def of_function(path):
    """Whether the file answers the goals of one function."""
    return os.path.basename(path) in ("Answers.antt", "Invariants.antt", "Proof.antt")


def is_odd(name):
    return "-" in name or re.match(r"^[a-z]\w*[A-Z]", name) is not None


def respelled(name):
    if name in OVERRIDES:
        return OVERRIDES[name]
    if name[0].isupper():
        return "".join(w[0].upper() + w[1:] for w in name.split("-"))
    return re.sub(r"(?<=[a-z0-9])(?=[A-Z])", "_", name).replace("-", "_").lower()


def declared():
    """The repository's own odd names: definitions, lemmas, fields and constructors, without answers to goals."""
    own, typed = set(), set()
    for path in files(".antt"):
        for line in read(path).splitlines():
            if line.strip().startswith(("--", "use ", "let ", "|", "(")):
                continue
            t = TYPE.match(line)
            if t:
                own.add(t.group(1))
                typed.add(t.group(1))
            d = DECLARED.match(line)
            if not d:
                continue
            name, said = d.group(2), d.group(4) or ""
            if of_function(path) and re.match(r"goal\.", said.strip()):
                continue
            own.add(name)
            if re.search(r"Type 0\s*$", said):
                typed.add(name)
    return {n for n in own if is_odd(n)}, typed


def code_and_rest(text, rust):
    """Pieces of a text: (True, what may be respelled) and (False, comments and strings)."""
    comment = r"//[^\n]*" if rust else r"--[^\n]*"
    quoted = r"b?\"(?:\\.|[^\"\\])*\"|b?'(?:\\.[^']*|[^'\\\n])'" if rust else r"\"[^\"\n]*\""
    at = 0
    for m in re.finditer(f"{quoted}|(?:(?<=\\s)|^){comment}", text, re.M):
        yield True, text[at : m.start()]
        yield False, m.group(0)
        at = m.end()
    yield True, text[at:]


def of_library(text):
    """The names that a file takes from the toolchain's crates: they keep their spelling there."""
    names = set()
    for m in re.finditer(r"^\s*(?:pub |ghost )*use Rattle\.(\w+)\.[^\n{]*\{([^}]*)\}", text, re.M):
        if not os.path.isdir(os.path.join(TOP, m.group(1))):
            names |= {w.strip() for w in m.group(2).split(",")}
    return names


def aliases_of(text):
    return {n for n in re.findall(r" as ([^\W\d][\w'\-]*)", "\n".join(re.findall(r"^ghost use [^;]*;", text, re.M))) if is_odd(n)}


def locals_of(text, path, known):
    """Odd names that a file binds for itself."""
    imported = set()
    for m in re.finditer(r"^(?:pub )?use [^\n{]*\{([^}]*)\}", text, re.M):
        imported |= {w.strip().split(" as ")[-1].strip() for w in m.group(1).split(",")}
    bound = set(re.findall(r"\blet\s+([^\W\d][\w'\-]*)", text))
    for m in re.finditer(r"λ([^.]*)\.", text):
        bound |= set(NAME.findall(m.group(1)))
    if not of_function(path):
        for m in NAME.finditer(text):
            if not text[: m.start()].endswith("."):
                bound.add(m.group(0))
    aliases = set(re.findall(r" as ([^\W\d][\w'\-]*)", text))
    return {n for n in bound | aliases if is_odd(n) and (n not in imported or n in aliases) and n not in known}


def turned(text, pairs, path):
    """The text in the new spelling. In the answers of a function, a step of the code keeps the name that Rattle gives it."""

    def word(m):
        step = of_function(path) and re.search(r"\b[cwl]\.$", m.string[: m.start()])
        return m.group(0) if step else pairs.get(m.group(0), m.group(0))

    return "".join(NAME.sub(word, piece) if own else piece for own, piece in code_and_rest(text, path.endswith(".rt")))


def scoped(path):
    return {n: w for top, words in SCOPED.items() if path.startswith(top) for n, w in words.items()}


def main():
    own, typed = declared()
    for n in sorted(own):
        if n[0].isupper() and n not in typed:
            print(f"respell: {n} begins like a type and is none", file=sys.stderr)
    pairs = {n: respelled(n) for n in own}
    together = collections.defaultdict(set)
    for n, w in pairs.items():
        together[w].add(n)
    clashes = {w: ns for w, ns in together.items() if len(ns) > 1}
    for path in files(".antt"):
        words = set(NAME.findall(" ".join(p for o, p in code_and_rest(read(path), False) if o)))
        for n in words & set(pairs):
            if pairs[n] in words - set(scoped(path)):
                clashes.setdefault(pairs[n], set()).add(f"{n} in {path}")
    for path in files(".rt"):
        words = set(NAME.findall(" ".join(p for o, p in code_and_rest(read(path), True) if o)))
        for n in words & set(pairs):
            if pairs[n] in words:
                clashes.setdefault(pairs[n], set()).add(f"{n} in {path}")
    for w, ns in sorted(clashes.items()):
        print(f"respell: {w} is meant by more than one: {', '.join(sorted(ns))}", file=sys.stderr)
    if "--list" in sys.argv:
        for n in sorted(pairs):
            print(n, pairs[n])
        return 1 if clashes else 0
    if clashes:
        return 1
    changed = 0
    for path in list(files(".antt")) + list(files(".rt")):
        old = read(path)
        rust = path.endswith(".rt")
        here = pairs | scoped(path)
        text = "".join(p for o, p in code_and_rest(old, rust) if o)
        own_words = aliases_of(text) if rust else locals_of(text, path, set(pairs))
        here |= {n: respelled(n) for n in own_words}
        for n in of_library(old):
            here.pop(n, None)
        new = turned(old, here, path)
        if new != old:
            with open(path, "w", encoding="utf-8") as f:
                f.write(new)
            changed += 1
    print(f"respell: {len(pairs)} names, {changed} files")
    return 0


if __name__ == "__main__":
    sys.exit(main())
