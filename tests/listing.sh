#!/bin/sh
# Runs the listing program on the examples and at the edges of its input. Exit status 0 where every text is the expected one, 1
# where one is not, 2 where something is missing.
set -eu
root=$(cd "$(dirname "$0")/.." && pwd)
# shellcheck source=tests/functions.sh
. "$root/tests/functions.sh"
provide_listing

# NAME FILE EXPECTED: the program's text on a file
expect() {
    same "$1" "$("$listing" < "$2")" "$3"
}

# COUNT: so many spaces, which are no archive's body
spaces() {
    printf "%${1}s" ''
}

# NUMBER: a byte
byte() {
    printf '%b' "\\0$(printf '%o' "$1")"
}

# VERSION REGION EXPECTED: the program's text on an archive of a version with one region and nothing else
expect_alone() {
    { byte "$1"; printf '\000\000\000\004\001'; byte "$2"; printf '\000\000'; } > "$work/alone"
    expect "region $2, version $1" "$work/alone" "$3"
}

# Every region, as an archive has them.
every_region() {
    byte 64
    for region in $numbers; do byte "$region"; done
}

# NUMBER: the numbers below it
below() {
    number=0
    while [ "$number" -lt "$1" ]; do
        echo "$number"
        number=$((number + 1))
    done
}

numbers=$(below 64)
header='asker region bundles packages services'
expect g examples/g.archive "$header
10 0 1 1 0
20 1 1 2 0
30 2 1 3 0"
expect cyclic examples/cyclic.archive "$header
10 3 1 0 0
20 4 1 0 0"
expect empty examples/empty.archive "$header"
expect refused-15 examples/refused-15.archive 'refused 15'
expect refused-16 examples/refused-16.archive 'refused 16'
expect refused-17 examples/refused-17.archive 'refused 17'
expect refused-17-version examples/refused-17-version.archive 'refused 17'
expect refused-17-range examples/refused-17-range.archive 'refused 17'

# version 2: region numbers above 15; under another version it is refused
expect plates examples/plates.archive "$header
10 0 1 2 0
20 16 2 3 1
30 63 1 2 1"
{ printf '\001'; tail -c +2 examples/plates.archive; } > "$work/early"
expect 'plates with version 1' "$work/early" 'refused 17'
{ printf '\003'; tail -c +2 examples/plates.archive; } > "$work/third"
expect 'plates with version 3' "$work/third" 'refused 17'
{ printf '\004'; tail -c +2 examples/plates.archive; } > "$work/fourth"
expect 'plates with version 4' "$work/fourth" 'refused 15'
expect_alone 1 15 "$header"
expect_alone 2 15 'refused 17'
expect_alone 1 16 'refused 17'
expect_alone 2 16 "$header"
expect_alone 2 63 "$header"
expect_alone 2 64 'refused 17'
expect_alone 1 64 'refused 17'
expect_alone 3 0 "$header"
expect_alone 3 15 "$header"
expect_alone 3 63 "$header"
expect_alone 3 64 'refused 17'
expect_alone 4 15 'refused 15'
expect_alone 0 15 'refused 15'

# version 3: G, which sees the same; a package in several versions; two bundles with (1, 0), one of them with (1, 7) too: 2 packages
expect g-version-3 examples/g-version-3.archive "$("$listing" < examples/g.archive)"
expect versions examples/versions.archive "$header
10 0 1 2 1
20 1 2 3 1
30 2 1 3 1"
{
    printf '\003\000\000\000\050\001\000\002'
    printf '\000\015\000\000\000\012\000\001\000\000\000\001\000\000\000'
    printf '\000\023\000\000\000\024\000\002\000\000\000\001\000\000\000\000\000\001\000\007\000'
    byte 0
} > "$work/pairs"
expect 'pairs of number and version' "$work/pairs" "$header
10 0 2 2 0
20 0 2 2 0"

: > "$work/none"
expect no-bytes "$work/none" 'refused 15'

# a whole input of 65,536 bytes, with the length that goes with it
{ printf '\001\000\000\377\373'; spaces 65531; } > "$work/whole"
expect 65536-bytes "$work/whole" 'refused 17'

# one byte more: judged by its first 65,536, which have the right length
{ cat "$work/whole"; spaces 1; } > "$work/over"
expect 65537-bytes "$work/over" 'refused 17'

# one byte less than the length says
head -c 65535 "$work/whole" > "$work/under"
expect 65535-bytes "$work/under" 'refused 16'

same 'lines of longest' "$("$listing" < examples/longest.archive | grep -c .)" 65

# the same with every region, which is the longest file of version 2: the listing is the same
{
    printf '\002\000\000\067\323'
    every_region
    tail -c +23 examples/longest.archive
} > "$work/longest"
same 'bytes with every region' "$(($(wc -c < "$work/longest")))" 14296
expect 'longest with every region' "$work/longest" "$("$listing" < examples/longest.archive)"

# each region with a bundle of its number, which publishes the service of that number, and each of the first 48 connected to the next
{
    printf '\002\000\000\004\323'
    every_region
    byte 64
    for region in $numbers; do
        printf '\000\013\000\000\000'
        byte "$region"
        byte "$region"
        printf '\000\001\000\000\000'
        byte "$region"
    done
    byte 48
    for region in $(below 48); do
        printf '\000\005'
        byte "$region"
        byte $((region + 1))
        printf '\000\000\377'
    done
} > "$work/row"
expect row "$work/row" "$header
$(for region in $numbers; do echo "$region $region 1 0 $((region < 48 ? 49 - region : 1))"; done)"
end_checks
