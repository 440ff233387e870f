#!/usr/bin/env bash
# Files as arguments of the bench: what it says of wrong lines in them, that the others are carried out, and that it ends with 1.
# It is run by rt try, which builds it in seconds and stops at any error of the run; rt ci proves the same files.
set -euo pipefail
cd "$(dirname "$0")/.."
tests=$PWD/tests out=$PWD/target/files
rm -rf "$out"
mkdir -p "$out"

# fails NAME FILE..: the bench on these files ends with status 1 and prints tests/NAME.expected
fails() {
    local name=$1 status=0 data=() file
    shift
    for file in "$@"; do
        if [ -e "$tests/$file" ]; then data+=(--data "$file=$tests/$file"); fi
    done
    (cd crates/bench && rt try "${data[@]}" -- "$@") >"$out/$name" 2>"$out/$name.ends" || status=$?
    if [ "$status" -ne 1 ]; then cat "$out/$name.ends" >&2; echo "$name: status $status in place of 1" >&2; exit 1; fi
    cmp "$out/$name" "$tests/$name.expected"
}

# lines are counted from 1 in each file; where a file cannot be read, nothing is carried out
fails second first.scenario wrong.scenario
fails absent first.scenario absent.scenario
echo "files: ok"
