#!/bin/sh
# Times puts and reads on full flash cards, of one page more than blocks, as the card is and as it was before it kept
# tables of its pages, and prints a table. Wants rt and git. Takes half an hour, nearly all of it for one put on the old
# card of 1,000,000 pages.
#
# usage: card.sh [SECONDS]    stops that put after so many seconds
set -eu

top=$(cd "$(dirname "$0")/.." && pwd)
limit=${1-0}
work=$(mktemp -d)
trap 'rm -rf "$work"' EXIT

# The repository as it was before the card kept tables, with this card_bench. There no memory is wanted to make a card, so
# that its making gives no Result.
clone_before() {
    tables=$(git -C "$top" log --diff-filter=A --format=%H -- crates/flash_card/src/tables.rt | tail -n 1)
    git clone -q "$top" "$work/before"
    git -C "$work/before" checkout -q "$tables^"
    mkdir "$work/before/crates/card_bench"
    cp -r "$top/crates/card_bench/src" "$top/crates/card_bench/proofs" "$work/before/crates/card_bench/"
    sed -i 's/\(FlashCard::new(.*)\)?;/\1;/' "$work/before/crates/card_bench/src/times.rt"
    grep '^card_bench:' "$top/crates.txt" >> "$work/before/crates.txt"
}

# Proves and builds card_bench in the repository in this folder.
build() {
    (cd "$1/crates/card_bench" && rt run > "$work/log" 2>&1) || {
        cat "$work/log" >&2
        exit 1
    }
}

# A time in nanoseconds, and how many calls were timed, or a dash if none was.
shown() {
    awk -v ns="$1" -v calls="$2" 'BEGIN {
        if (calls == 0) print "-"
        else if (ns < 10000) printf "%d ns (%d)\n", ns, calls
        else if (ns < 10000000) printf "%.1f us (%d)\n", ns / 1000, calls
        else if (ns < 10000000000) printf "%.1f ms (%d)\n", ns / 1000000, calls
        else printf "%.1f s (%d)\n", ns / 1000000000, calls
    }'
}

# A line of the table: the pages, and how many puts and reads are timed on the old card and on the new one.
line() {
    blocks=$(($1 - 1))
    old=$("$work/before/crates/card_bench/out/card_bench" "$blocks" "$2" "$3")
    new=$("$top/crates/card_bench/out/card_bench" "$blocks" "$4" "$5")
    set -- "$1" $old $new
    printf '| %s | %s | %s | %s | %s | %s ms |\n' "$1" "$(shown "$5" "$4")" "$(shown "${12}" "${11}")" \
        "$(shown "$7" "$6")" "$(shown "${14}" "${13}")" "${10}"
}

# The time of a put on the old card of 1,000,000 pages, or that it was stopped after the limit. A limit of 0 is none.
longest_put() {
    put=$(timeout "$limit" "$work/before/crates/card_bench/out/card_bench" 999999 1 0 | cut -d ' ' -f 4)
    if [ -n "$put" ]; then
        shown "$put" 1
    else
        echo "> $limit s"
    fi
}

clone_before
build "$work/before"
build "$top"
echo "$(date -u +%Y-%m-%d), $(nproc --all) cores; in brackets how many calls were timed"
echo
echo '| pages | put before | put now | read before | read now | making now |'
echo '|---|---|---|---|---|---|'
line 1000 200 1000 100000 100000
line 10000 5 1000 100000 100000
line 100000 1 100 100000 100000
line 1000000 0 20 100000 100000 | sed "s/ - / $(longest_put) /"
