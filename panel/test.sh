#!/bin/sh
# Builds the panel and its test with the fault line's static library, runs them, and compares what they print with
# expected.txt. Ends with a status other than 0 if anything differs.
# usage: panel/test.sh [LIBRARY]    LIBRARY is target/staticlib/libfault_line.a unless given
set -eu
root=$(cd "$(dirname "$0")/.." && pwd)
library=${1:-$root/target/staticlib/libfault_line.a}
work=$(mktemp -d)
trap 'rm -rf "$work"' EXIT

for program in panel test; do
    "${CC:-gcc}" -std=c99 -Wall -Wextra -Werror -pedantic -O2 -I "$root/include" -o "$work/$program" \
        "$root/panel/$program.c" "$library"
done

# Runs the panel, and tells its status.
panel() {
    echo "panel $*"
    status=0
    "$work/panel" "$@" 2>&1 || status=$?
    echo "status $status"
}

{
    status=0
    "$work/test" || status=$?
    echo "status $status"
    panel 1 3 0 0x1000 1 0x1000 0
    panel 3 2 0xFFFFFFFE 4294967295 2 0x9abcdef0 255
    panel 4 3 0 0x1000 1 0x1000 0
    panel 1 3 0 0x1000 1 0x1000 256
    panel 1 3 0 0x1000 1 0x1000
    panel 1 3 0 0x100000000 1 0x1000 0
    panel 1 3 -1 0x1000 1 0x1000 0
    panel 1 3 0 0x 1 0x1000 0
    panel 1 3 0 12ab 1 0x1000 0
    panel 1 3 0 0x0x10 1 0x1000 0
    panel 1 3 0 99999999999999999999 1 0x1000 0
} > "$work/printed.txt"

diff -u "$root/panel/expected.txt" "$work/printed.txt"
echo "panel: as expected"
