#!/usr/bin/env bash
# Standard input of the bench: wrong lines, and loads of large images with every cell of the largest card afterwards.
# It is run by rt try, which builds it in seconds and stops at any error of the run; rt ci proves the same files.
set -euo pipefail
cd "$(dirname "$0")/.."
tests=$PWD/tests out=$PWD/target/stdin
rm -rf "$out"
mkdir -p "$out/cases"

# wrong lines; a last line without its end, which is carried out; nothing, which is right
cp "$tests/wrong.scenario" "$out/cases/wrong"
printf 'card word 1\nlook 0' >"$out/cases/unended"
: >"$out/cases/empty"

# so many bytes of 1
ones() { head -c "$1" /dev/zero | tr '\0' '\1'; }

# one segment of 1,000,000 words (0x000f4240) at 0; the same a byte short and a byte long
{ printf '\0\0\0\1\0\0\0\0\0\17\102\100' && ones 4000000; } >"$out/million.image"
{ printf '\0\0\0\1\0\0\0\0\0\17\102\100' && ones 3999999; } >"$out/short.image"
{ printf '\0\0\0\1\0\0\0\0\0\17\102\100' && ones 4000001; } >"$out/long.image"
# a count of 65
{ printf '\0\0\0\101' && ones 4000000; } >"$out/count.image"
# one segment of 65,536 words (0x00010000) at 0, the first and the last of which differ from the others
{ printf '\0\0\0\1\0\0\0\0\0\1\0\0\22\64\126\170' && ones $((4 * 65534)) && printf '\0\0\0\52'; } >"$out/whole.image"

# The half of the cells from FROM on, after the loads that are refused, and after the one that is placed whole: a run may print
# less than a dump of all cells.
for from in 0 32768; do
    cat >"$out/cases/refused.$from" <<END
card word 65536
words 0 5
words 65535 6
load million.image
load short.image
load long.image
load count.image
memory $from 32768
END
    cat >"$out/cases/whole.$from" <<END
card word 65536
load whole.image
memory $from 32768
END
done

# cells FROM FIRST OTHER LAST: the dump of a half on a card with these words at 0, between and at 65535
cells() {
    seq "$1" $(($1 + 32767)) | awk -v first="$2" -v other="$3" -v last="$4" \
        '{ printf "%08x open %s\n", $1, $1 == 0 ? first : $1 == 65535 ? last : other }'
}

# in the order of the cases' names
{
    printf '== empty\n'
    for from in 0 32768; do
        printf '== refused.%s\ncard ok\nwords ok\nwords ok\n' "$from"
        printf 'load refused %s\n' '44 at 00010000' 41 41 42
        cells "$from" 00000005 00000000 00000006
    done
    printf '== unended\ncard ok\nlook open 00000000\n'
    for from in 0 32768; do
        printf '== whole.%s\ncard ok\nload ok\n' "$from"
        cells "$from" 12345678 01010101 0000002a
    done
    printf '== wrong\n'
    cat "$tests/wrong.expected"
} >"$out/expected"

data=()
for name in million short long count whole; do data+=(--data "$name.image=$out/$name.image"); done
(cd crates/bench && rt try "${data[@]}" --cases "$out/cases") >"$out/printed" 2>"$out/ends" || { cat "$out/ends" >&2; exit 1; }
cmp "$out/printed" "$out/expected"
for end in 'empty run=ended status=0' 'unended run=ended status=0' 'wrong run=ended status=1'; do
    if ! grep -q "^case=$end " "$out/ends"; then echo "not so: $end" >&2; exit 1; fi
done
echo "standard input: ok"
