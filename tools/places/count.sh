#!/usr/bin/env bash
# Lists the places of crates/*/src where an older form may stand, by kind; each line is a place to read.
# count.sh [REV]: at a commit, or in the working tree.
set -uo pipefail
cd "$(dirname "$0")/../.."
rev=${1:-}

lines() {
    git grep -nE "$1" $rev -- 'crates/*/src/*.rt' ':!crates/handles_replay/src/sample.rt' | sed -E "s/^$rev:?//; s/^crates.//"
}

kind() {
    echo "## $1"
    cat
}

lines '^ *(pub(\(crate\))? )?enum ' | kind '1 enums'
lines '(: bool,$|, bool\)|\(bool, )' | kind '1 flags beside a value'
lines '(const [A-Z]+: u(8|32) |(kind|list): u(8|32)\b|home: \[u8)' | kind '1 numbers for kinds'
lines '(None => (None|false|0|\{\}|unreachable|Err)|Err\(([a-z_]+)\) => (Err|None|false)|Some\(_\) => |(if [^{]*|else) \{ ?(Some\([a-z_]+\) \} else \{ )?None ?\}|^ *None$)' | grep -v '_tests/' | kind '1 options and results handed on'
python3 tools/places/twins.py $rev | kind '2 bodies of one shape'
lines '^ *(.[a-z]+: )?(while|loop|for) |= loop \{' | grep -vE 'impl|//' | kind '3 loops'
lines 'fn (same|eq|ne|cmp|clone|char|number|line|from|into|fmt|read_[a-z_0-9]+|says_[a-z]+|part_of|part_at|report_of|rank|fold)\b' | kind '4 conversions, comparisons and printing'
git grep -hoE '^ +(ensures|requires)( [a-z]+)? \{.*\}' $rev -- 'crates/*/src/*.rt' | sed -E 's/^ +//; s/(ensures|requires) [a-z]+ \{/\1 {/' \
    | sort | uniq -c | sort -rn | awk '$1 >= 3' | kind '5 clauses in three contracts or more'
python3 tools/places/together.py $rev | kind '5 parameters together in three signatures or more'
lines '^ +(pub(\(crate\))? )?[a-z_]+: (\[.*; .*\]|&.*\[.*\]|usize|u8|u16),$' | kind '6 arrays, lengths and indices in structs'
lines '(trait [A-Z][a-zA-Z]+|dyn |impl Fn|: Fn)' | kind '7 traits and closures'
for crate in $(git ls-files 'crates/*/proofs/*' | cut -d/ -f2 | sort -u); do
    files=$(git ls-tree -r --name-only "${rev:-HEAD}" "crates/$crate/proofs" | grep -c 'Answers.antt$')
    all=$(git ls-tree -r --name-only "${rev:-HEAD}" "crates/$crate/proofs" | sed "s/^/${rev:-HEAD}:/" | git cat-file --batch | wc -l)
    echo "$crate: $files answer files, $all lines of proof"
done | kind '8 proofs'
