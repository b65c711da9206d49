#!/usr/bin/env bash
# Tries the further slips: must-fail edits in slips/CRATE/ that the gate leaves out, since it has others for the same
# functions. Each must be refused. Without a name those of all crates are tried. They are tried in a copy of the tree, so
# that nothing here changes: it begins with what `rt check` kept here of the crates that they are edits of.
set -euo pipefail
cd "$(dirname "$0")"
[ $# -gt 0 ] || set -- $(ls slips)
copy=$(mktemp -d)
trap 'rm -rf "$copy"' EXIT
tar -c --exclude 'crates/*/out' crates crates.txt | tar -x -C "$copy"
rm -rf "$copy"/crates/*/must-fail
for crate in "$@"; do
    cp -r "slips/$crate" "$copy/crates/$crate/must-fail"
done
cd "$copy"
rt must-fail "$@"
