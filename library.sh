#!/usr/bin/env bash
# Makes target/staticlib/libporvuund.a, the library that Rust and C link: what `rt lib` makes of the crate porvuund_c,
# under the name that they look for. `rt lib` first builds each library below, which takes as long as proving them where
# no check here has done so. With the word `proved`, right after `rt ci` in a tree that no other check has worked in, it
# is built over the libraries that `rt ci` proved, within a minute.
set -euo pipefail
cd "$(dirname "$0")"
archive=out/libporvuund_c.a

# the libraries below, as `rt ci` leaves them: without the stamp by which other commands know their own
over_proved() {
    local kit name
    kit=$(dirname "$(rt doc)")
    local words=(--crate-name porvuund_c src/lib.rt --extern "std=$kit/rlibs/std.rlib" -L "dependency=$kit/rlibs")
    for name in $(sed -n 's/^porvuund_c staticlib: //p' ../../crates.txt); do
        [ -d "../$name/out/rlib/$name.rlib" ] && [ ! -e "../$name/out/rlib/stamp" ] || return 1
        words+=(--extern "$name=../$name/out/rlib/$name.rlib" -L "dependency=../$name/out/rlib")
    done
    words+=(--antt-project "$kit/rattle/logic/antt-project.json" --logic-built "$kit/logic_built" --jobs 2)
    words+=(--links porvuund_c= --crate-type staticlib --toolchain "$kit/toolchain" --backend llvm)
    mkdir -p out
    "$kit/bin/rattle" build "${words[@]}" -o "$archive"
}

cd crates/porvuund_c
rm -f "$archive"
{ [ "${1-}" = proved ] && over_proved; } || rt lib
mkdir -p ../../target/staticlib
cp "$archive" ../../target/staticlib/libporvuund.a
