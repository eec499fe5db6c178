#!/bin/sh
# Compares the handle table with the Rust file given, then times both.
# Usage: tools/beside_rust/handles/run.sh PATH_OF_HANDLES_RS [compare|time|sample]
set -eu
rust=$1
what=${2:-compare}
here=$(cd "$(dirname "$0")" && pwd)
root=$(cd "$here/../../.." && pwd)
work=$(mktemp -d)
trap 'rm -rf "$work"' EXIT
cat "$rust" "$here/appended.rs" > "$work/handles.rs"
# The file is compared unchanged: it is the first part of what is built.
head -c "$(wc -c < "$rust")" "$work/handles.rs" | cmp - "$rust"
cp "$here/driver.rs" "$work/driver.rs"
ours=$root/crates/handles_c
[ -f "$ours/out/libhandles_c.a" ] || (cd "$ours" && rt lib >&2)
rustc -O --edition 2024 --cfg 'feature="std"' -L "$ours/out" -C link-arg="$(dirname "$(rt doc)")/c/liblibc_c.a" -o "$work/driver" "$work/driver.rs"
"$work/driver" "$what"
