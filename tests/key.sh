#!/usr/bin/env bash
# Three wrong programs that the compiler refuses before anything is proved: one lets a drawn key go, one sets a register with a
# key given back, one makes a key by itself. Each is an edit of a copy of crates/key_use, outside the repository, that has to be
# refused with the one error that it names. The copy reads the libraries below it from their sources; rt ci proves the crate as
# it stands.
set -euo pipefail
cd "$(dirname "$0")/.."
libraries=()
for name in refusal card isa machine clocked; do
    libraries+=(--lib "$name=$PWD/crates/$name/src/lib.rt")
done
work=$(mktemp -d)
trap 'rm -rf "$work"' EXIT

# part NAME EDIT: what follows NAME: in an edit
part() { sed -n "s/^$1: \{0,1\}//p" "$2"; }

for edit in tests/key/*.edit; do
    name=$(basename "$edit" .edit)
    copy=$work/$name/key_use
    mkdir -p "$copy"
    cp -r crates/key_use/src crates/key_use/specs "$copy"
    file=$copy/$(part file "$edit") old=$(part old "$edit") new=$(part new "$edit")
    if [ "$(grep -cF -- "$old" "$file")" -ne 1 ]; then echo "$name: the old text is not there once" >&2; exit 1; fi
    text=$(cat "$file")
    printf '%s\n' "${text/"$old"/"$new"}" >"$file"
    if (cd "$copy" && rt check key_use "${libraries[@]}") >"$work/$name/said" 2>&1; then
        echo "$name: it is not refused" >&2
        exit 1
    fi
    found=$(sed -n 's/.*error\[\([^]]*\)\].*/\1/p' "$work/$name/said")
    if [ "$found" != "$(part error "$edit")" ]; then
        cat "$work/$name/said" >&2
        echo "$name: refused with '$found'" >&2
        exit 1
    fi
done
echo "key: ok"
