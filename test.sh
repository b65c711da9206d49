#!/usr/bin/env bash
# Proves every crate, tries every must-fail edit, runs every program and compares its output (`rt ci`), then runs the Rust
# tests, which hold the proved programs and the proved library to the second implementation. What is tried has a line
# each. The log ends with the seconds of the parts, the functions and must-fail edits of each crate, and the counts of
# all: 'N passed, M failed'. A must-fail edit that cannot be tried counts as failed. Exit status 0 only if M is 0 and every
# part ran to its end.
set -uo pipefail
cd "$(dirname "$0")" || exit 2
export PATH="$HOME/.cargo/bin:$PATH"
log=$(mktemp -d) || exit 2
trap 'rm -rf "$log"' EXIT
passed=0 failed=0

# adds the counts of a part that ended with the given status; a part that failed without a count is one failure
tally() { # STATUS PASSED FAILED
    passed=$((passed + $2))
    failed=$((failed + $3))
    if [ "$1" -ne 0 ] && [ "$3" -eq 0 ]; then failed=$((failed + 1)); fi
}

# says how long a part took that began at the given second
took() { # SINCE WHAT
    echo "gate: $2 ($((SECONDS - $1)) s)" | tee -a "$log/times"
}

# says how long each part took, and what passed and failed
finish() {
    took 0 "all of it" >/dev/null
    bash .ci/times "$log/rattle" "$log/times"
    echo "$passed passed, $failed failed"
    [ "$failed" -eq 0 ]
    exit
}

touch "$log/began"
began=$SECONDS
rt ci 2>&1 | tee "$log/rattle"
status=$?
counts=$(tail -n 1 "$log/rattle" | sed -n 's/^\([0-9]*\) passed, \([0-9]*\) failed$/\1 \2/p')
[ -n "$counts" ] || { counts='0 0'; [ "$status" -ne 0 ] || status=1; }
# shellcheck disable=SC2086
tally "$status" $counts
# edits that cannot be applied, compiled or read fail nothing in `rt ci`
bad=$(sed -n 's/^rt: ok; .*, \([0-9]*\) bad.*/\1/p' "$log/rattle")
tally 0 0 "${bad:-0}"
took "$began" "proofs, must-fail edits and programs"

# what the programs tried that write a line for each case, and what came of it; play's cases are the calls of its script
for program in sheet_cases search_cases book_cases; do
    sed "s/^/$program: /" "crates/$program/out/stdout"
done
paste -d '>' crates/play/stdin crates/play/out/stdout | sed 's/^/play: /; s/>/ -> /'

# rt ci leaves the programs, each in its crate. Where one is missing, nothing that calls them is tried
mkdir -p target/bin
rm -f target/bin/*
for program in rolebook rolesearch rolecheck rolenewcomer play; do
    cp "crates/$program/out/$program" target/bin/ && continue
    echo "the programs are not all there: the shell front and the Rust tests are left out"
    tally 1 0 0
    finish
done
# what the shell front asks: whether all are there, and no file is newer
touch -r "$log/began" target/porvuund.built

# the shell front for people: what it prints, and its exit status
front() { # STATUS OUTPUT ARGUMENT..
    local status=$1 output=$2 got
    shift 2
    got=$(./porvuund "$@" 2>>"$log/front"; echo "status $?")
    if [ "$got" = "$output"$'\n'"status $status" ] || [ "$got" = "${output}status $status" ]; then
        echo "porvuund $*: as expected"
        tally 0 1 0
    else
        printf 'porvuund %s: expected %s and status %s, got %s\n' "$*" "$output" "$status" "$got"
        tally 0 0 1
    fi
}
began=$SECONDS
printf 'user,a\nann,2\n' >"$log/broken sheet"
front 0 "$(cat crates/rolecheck/data/roosts.book)" book examples/roosts.csv
front 0 5,5 check examples/roosts.csv crates/rolecheck/data/roosts.book
front 0 2,2 check crates/play/data/paper.csv crates/play/data/spelled.book
front 1 7 book "$log/broken sheet"
front 1 8 book crates/play/data/one-name.csv
front 1 11 book crates/play/data/wide.csv
front 1 12 check examples/roosts.csv examples/roosts.csv
front 2 '' book "$log/no such sheet"
front 2 '' book examples/roosts.csv many
front 0 "$(cat crates/rolesearch/stdout)" search crates/play/data/four.csv
front 0 "$(cat crates/rolecheck/data/roosts.book)" search examples/roosts.csv 1
front 1 7 search "$log/broken sheet" 3
front 2 '' search "$log/no such sheet"
front 2 '' search examples/roosts.csv 0
front 2 '' search examples/roosts.csv 4294967296
front 2 '' search examples/roosts.csv many
front 2 '' search examples/roosts.csv 1 2
# what the long search writes on standard error, without the steps a second: a line after each search, with the depth
# gained; of a kernel that is not searched as many as are asked for, or 3,600; no such line for a refused sheet
progress() { # LINES SHEET [ROUNDS]
    local lines=$1 got
    shift
    got=$(./porvuund search "$@" 2>&1 >/dev/null | sed 's/, [0-9][0-9]* steps a second$//')
    if [ "$got" = "$lines" ]; then
        echo "porvuund search $*, standard error: as expected"
        tally 0 1 0
    else
        printf 'porvuund search %s, standard error: expected %.400s, got %.400s\n' "$*" "$lines" "$got"
        tally 0 0 1
    fi
}
idle='0 steps so far, depth gained 0, 13 roles, bound 3, open'
progress '125 steps so far, depth gained 0, 4 roles, bound 4, searched' crates/play/data/four.csv 5
progress '0 steps so far, depth gained 0, 5 roles, bound 5, witnessed' examples/roosts.csv
progress "$idle"$'\n'"$idle" crates/play/data/thirteen.csv 2
progress "$(for _ in $(seq 3600); do echo "$idle"; done)" crates/play/data/thirteen.csv
progress 'porvuund: refused: a field after a user name is not 0 or 1' "$log/broken sheet" 2
# the book that the book program finds too long
if [ "$(./porvuund search crates/play/data/wide.csv 1 2>>"$log/front" | wc -c)" -gt 65536 ]; then
    echo "porvuund search crates/play/data/wide.csv 1: a book of more than 65,536 bytes, as expected"
    tally 0 1 0
else
    echo "porvuund search crates/play/data/wide.csv 1: expected a book of more than 65,536 bytes"
    tally 0 0 1
fi
# a newcomer: finn's friend, with no new role and with one, also from standard input; refusals and wrong use
book=crates/rolecheck/data/roosts.book
front 0 "$(sed 's/^finn,0,0,0,0,1$/&\ngwen,0,0,0,0,1/' "$book")" newcomer examples/roosts.csv "$book" examples/gwen.csv
front 0 "$(cat crates/rolenewcomer/stdout)" newcomer examples/roosts.csv "$book" crates/rolenewcomer/data/gwen.csv
front 0 "$(cat crates/rolenewcomer/stdout)" newcomer examples/roosts.csv "$book" - <crates/rolenewcomer/data/gwen.csv
front 1 2 newcomer examples/roosts.csv "$book" examples/roosts.csv
front 1 12 newcomer examples/roosts.csv examples/roosts.csv examples/gwen.csv
front 1 17 newcomer examples/roosts.csv "$book" - <<<'FINN,0,0,0,0,1,0'
front 2 '' newcomer examples/roosts.csv "$book"
front 2 '' newcomer examples/roosts.csv "$book" "$log/no such line"
front 0 'a reduction, a search or a book was asked for with no accepted sheet' explain 10
front 0 'a search or a book was asked for on a sheet that is not yet reduced' explain 16
front 2 '' explain 0
front 0 "the newcomer's name is taken, A-Z read as a-z" explain 17
front 0 'the sheet has 256 users already, and a newcomer would be one too many' explain 18
front 0 'the newcomer needs a new role, and it would be number 129' explain 19
front 2 '' explain 20
front 2 '' explain
took "$began" "the shell front"

# the library is made from what rt ci proved, beside the tests that need none. Where it is missing the others fail
library_began=$SECONDS
bash library.sh proved >"$log/library" 2>&1 &
library=$!

# builds and runs the Rust tests of these crates, one crate after the other: each line names its crate
rust_tests() { # WHICH CRATE..
    local which=$1 part status counts packages=()
    shift
    for part; do packages+=(-p "$part"); done
    began=$SECONDS
    (cd rust && cargo test --offline --no-run "${packages[@]}" 2>&1)
    took "$began" "the Rust tests $which, built"
    for part; do
        began=$SECONDS
        (cd rust && cargo test --offline --no-fail-fast -p "$part" 2>&1) | tee "$log/rust" |
            sed "s/^test \(.* \.\.\. \)/rust, $part: \1/"
        status=$?
        counts=$(awk '/^test result:/ { p += $4; f += $6 } END { print p + 0, f + 0 }' "$log/rust")
        [ "${counts%% *}" -gt 0 ] || status=1
        # shellcheck disable=SC2086
        tally "$status" $counts
        took "$began" "the Rust tests of $part"
    done
}
rust_tests "of Rust alone" trials programs baseline
wait "$library"
tally $? 0 0
cat "$log/library"
took "$library_began" "the library, beside them"
rust_tests "of the proved programs and library" compare bench

finish
