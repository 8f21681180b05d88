#!/bin/sh
# Counts, under valgrind, how often speed_bench allocates memory over each pile and how many bytes in all, beside how many
# blocks its timed calls handle. Wants valgrind, and speed_bench built, as speed.sh leaves it.
set -eu

top=$(cd "$(dirname "$0")/.." && pwd)
work=$(mktemp -d)
trap 'rm -rf "$work"' EXIT

# Runs speed_bench over a pile of 1000 blocks, and prints a line.
count() {
    case $1 in
    card*) pages='--pages 1001' ;;
    *) pages= ;;
    esac
    # shellcheck disable=SC2086
    valgrind "$top/crates/speed_bench/out/speed_bench" "$1" --blocks 1000 $pages --grant 4294967295 \
        > "$work/times" 2> "$work/log"
    blocks=$(awk '{ sum += $2 } END { print sum }' "$work/times")
    echo "$1: $blocks blocks timed, $(sed -n 's/.*total heap usage: \(.*\) allocs, .* frees, \(.*\) bytes.*/\1 allocations of \2 bytes/p' "$work/log")"
}

for pile in flat flat+table flat+queue card card+queue+table; do
    count "$pile"
done
