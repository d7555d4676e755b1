#!/usr/bin/env bash
# Tries the programs of tests/faulty, each of which must be refused for a method that its plan or index lacks, and those of
# tests/accepted, which must be accepted. Each is read as a crate of its own outside the repository, over copies of the crates below it.
# Only their sources are looked at here: the accepted ones are the files of the crate call_order, which `rt ci` proves.
set -eu
root=$(cd "$(dirname "$0")/.." && pwd -P)
room=$(mktemp -d)
trap 'rm -rf "$room"' EXIT

used=$(sed -n 's/^call_order: *//p' "$root/crates.txt")
mkdir "$room/crates"
for crate in $used; do
    mkdir "$room/crates/$crate"
    cp -r "$root/crates/$crate/src" "$root/crates/$crate/specs" "$room/crates/$crate"
    if [ -d "$root/crates/$crate/proofs" ]; then cp -r "$root/crates/$crate/proofs" "$room/crates/$crate"; fi
    grep "^$crate:" "$root/crates.txt" >>"$room/crates.txt"
done

# Reads the program, with a test that does nothing, writes what rt says of it to its log, and returns rt's status.
try() { # NAME FILE
    mkdir -p "$room/crates/$1/src"
    printf '%s: %s\n' "$1" "$used" >>"$room/crates.txt"
    { cat "$2"; printf '\n#[test]\nfn nothing_to_run() {}\n'; } >"$room/crates/$1/src/lib.rt"
    (cd "$room/crates/$1" && rt try --test) >"$room/$1.log" 2>&1
}

wrong() { # NAME WHAT
    echo "tools/faulty.sh: $1 $2:" >&2
    head -n 20 "$room/$1.log" >&2
    exit 1
}

# The program must be refused, and for no other reason than the missing method.
refused() { # NAME METHOD TYPE
    if try "$1" "$root/tests/faulty/$1.txt"; then wrong "$1" "is not refused"; fi
    [ "$(grep -c ': error' "$room/$1.log")" -eq 1 ] || wrong "$1" "is refused for something else"
    grep -q "error\[unknown-method\]: no method named \`$2\` found for type \`$3<M, K>\`" "$room/$1.log" || wrong "$1" "is refused for something else"
    echo "$1: refused, since $3 has no method $2"
}

accepted() { # NAME
    try "$1" "$root/tests/accepted/$1.txt" || wrong "$1" "is not accepted"
    grep -q '^test result: ok\.' "$room/$1.log" || wrong "$1" "is not accepted"
    cmp "$root/tests/accepted/$1.txt" "$root/crates/call_order/src/$1.rt" || wrong "$1" "is not the file of the crate call_order"
    echo "$1: accepted"
}

refused ask_a_plan ask Plan
accepted build_first
refused name_an_index name Index
accepted replan_first
