#!/bin/sh
# Times calls of stores and commands of the module over five piles, beside the same work in plain Rust (bench/plain) and
# beside memcpy, all in one run. Prints for each case how many times as long as plain Rust and as memcpy it takes, and in
# brackets millions of blocks a second. No buffer is cleared between calls. Wants rt and cargo. Takes some five minutes
# once both are built.
#
# usage: speed.sh [ROUNDS]    the median of so many rounds is taken, 5 by default
set -eu

top=$(cd "$(dirname "$0")/.." && pwd)
rounds=${1-5}
work=$(mktemp -d)
trap 'rm -rf "$work"' EXIT

# rt compiles for x86-64-v2, and so does cargo here
(cd "$top/crates/speed_bench" && rt run -- --help) > "$work/log" 2>&1 || {
    cat "$work/log" >&2
    exit 1
}
RUSTFLAGS='-C target-cpu=x86-64-v2' cargo build --release --offline --quiet --manifest-path "$top/bench/plain/Cargo.toml"
proved=$top/crates/speed_bench/out/speed_bench
plain=$top/bench/plain/target/release/speed

# The lines of one program, in the form: PILE MEMORY SIDE CASE, ns a block.
noted() {
    awk -v at="$1 $2 $3" '{ print at, $1, $3 / $2 }' >> "$work/times"
}

# One round over a pile: on a full card of so many pages, or a flat medium of as many blocks.
measure() {
    case $1 in
    card*) blocks=$(($2 - 1)) pages="--pages $2" ;;
    *) blocks=$2 pages= ;;
    esac
    # shellcheck disable=SC2086
    "$proved" "$1" --blocks "$blocks" $pages --grant 4294967295 | noted "$1" "$2" proved
    "$plain" "$1" "$blocks" | noted "$1" "$2" plain
}

for _ in $(seq "$rounds"); do
    for size in 1000 100000; do
        "$plain" memcpy "$size" | noted memcpy "$size" memcpy
        for pile in flat flat+table flat+queue card card+queue+table; do
            measure "$pile" "$size"
        done
    done
done

# The median of each.
sort -k 1,4 -k 5,5n "$work/times" | awk -v rounds="$rounds" '
    NR % rounds == int((rounds + 1) / 2) % rounds { print }
' > "$work/medians"

cpu=$(sed -n 's/^model name.*: //p' /proc/cpuinfo | head -n 1)
echo "$(date -u +%Y-%m-%d), $(nproc --all) cores, $cpu, load $(cut -d ' ' -f 1 /proc/loadavg); medians of $rounds rounds"
echo 'no buffer is cleared between calls'
awk '
    BEGIN {
        piles = split("flat flat+table flat+queue card card+queue+table", pile)
        cases = split("put-random put-rising read-random read-rising write-1 write-8 write-128 read-1 read-8 read-128 sync-8", name)
        sizes = split("1000 100000", size)
    }
    { ns[$1, $2, $3, $4] = $5 }
    # how many times as long as plain Rust and as memcpy, and millions of blocks a second
    function cell(pile, size, name) {
        proved = ns[pile, size, "proved", name]
        ratio = proved / ns[pile, size, "plain", name]
        if (pile == "flat" && name == "write-128" && ratio > long) long = ratio
        if (ratio > 2) slow = slow sprintf("\n  %s, %d, %s: %.2f", pile, size, name, ratio)
        return sprintf("%.2f, %.2f (%.1f)", ratio, proved / ns["memcpy", size, "memcpy", name], 1000 / proved)
    }
    END {
        for (s = 1; s <= sizes; s++) {
            printf "\nblocks of a flat medium, or pages of a card: %d\n\n| case | memcpy |", size[s]
            for (p = 1; p <= piles; p++) printf " %s |", pile[p]
            printf "\n|---|---|"
            for (p = 1; p <= piles; p++) printf "---|"
            printf "\n"
            for (c = 1; c <= cases; c++) {
                printf "| %s | %.1f |", name[c], 1000 / ns["memcpy", size[s], "memcpy", name[c]]
                for (p = 1; p <= piles; p++) printf " %s |", cell(pile[p], size[s], name[c])
                printf "\n"
            }
        }
        printf "\nflat, write-128: at most %.2f times as long as plain Rust (goal: 1.25)\n", long
        printf "more than twice as long as plain Rust (goal: none): %s\n", slow == "" ? "none" : slow
    }
' "$work/medians"
