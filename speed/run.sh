#!/usr/bin/env bash
# Instructions and clocks per second of the bench and of plain C, on the same program and count, in one run.
set -euo pipefail
cd "$(dirname "$0")/.."
mkdir -p target/speed

# seconds COMMAND..: runs it, and prints the best time of three
seconds() {
    local best=
    for _ in 1 2 3; do
        local from=$(date +%s%N)
        "$@" >target/speed/out
        local took=$(( $(date +%s%N) - from ))
        if [ -z "$best" ] || [ "$took" -lt "$best" ]; then best=$took; fi
    done
    echo "$best"
}

# compare UNIT SCENARIO PROGRAM: the bench on a scenario of so many units, and the C program on its count and words
compare() {
    local unit=$1 scenario=$2 plain=target/speed/$3
    gcc -O2 -Wall -Wextra -o "$plain" "speed/$3.c"
    local count=$(sed -n "s/^$unit //p" "$scenario")
    local words=$(sed -n 's/^words 0 //p' "$scenario")
    local ours=$(seconds target/bin/bench "$scenario")
    tail -n +4 target/speed/out >target/speed/ours
    local theirs=$(seconds "$plain" "$count" $words)
    cmp target/speed/ours target/speed/out
    awk -v unit="$unit" -v n="$count" -v a="$ours" -v b="$theirs" 'BEGIN {
        printf "bench   %12.0f %ss per second\n", n / a * 1e9, unit
        printf "plain C %12.0f %ss per second\n", n / b * 1e9, unit
        printf "ratio   %12.2f\n", b / a
    }'
}

compare instruction speed/long.scenario dp32
compare clock speed/clock.scenario dp32_clock
