#!/bin/sh
# Runs the drawing program on the examples and on archives and name sheets that are made here. Exit status 0 where every text is the
# expected one and dot takes every picture, 1 where not, 2 where something is missing: without dot of Graphviz all but what it takes
# is checked.
set -eu
root=$(cd "$(dirname "$0")/.." && pwd)
# shellcheck source=tests/functions.sh
. "$root/tests/functions.sh"
provide_drawing

# ARCHIVE [SHEET]: the program's text
draw() {
    if [ $# -eq 1 ]; then
        "$drawing" < "$1"
    else
        "$drawing" "$2" < "$1"
    fi
}

# The lines of a picture but for those that say how it looks.
content() {
    grep -v -e '^  graph \[' -e '^  node \[' -e '^  edge \[' | sed 's/color="#[0-9a-f]*"/C/'
}

# NAME ARCHIVE SHEET EXPECTED: the whole text
expect() {
    same "$1" "$(draw "$2" "$3")" "$4"
}

# NAME START EXPECTED ARCHIVE [SHEET]: the lines of a picture that start so
expect_line() {
    name=$1 start=$2 expected=$3
    shift 3
    same "$name" "$(draw "$@" | content | grep -F "  $start [C, label=")" "  $start [C, label=\"$expected\"];"
}

# NUMBER: a byte
byte() {
    printf '%b' "\\0$(printf '%o' "$1")"
}

# NUMBER: 16 bits
two() {
    byte $(($1 / 256))
    byte $(($1 % 256))
}

# NUMBER: 32 bits
four() {
    two 0
    two "$1"
}

# FILE [VERSION]: what is on standard input, after a version, which is 1 where none is given, and its length
framed() {
    cat > "$work/rest"
    { byte "${2:-1}"; four $(($(wc -c < "$work/rest"))); cat "$work/rest"; } > "$1"
}

# KIND NUMBER NAME: an entry of a sheet
entry() {
    two $((5 + ${#3}))
    byte "$1"
    four "$2"
    printf '%s' "$3"
}

# NUMBER...: a list
list() {
    byte $#
    for number in "$@"; do four "$number"; done
}

# LOCATION: a bundle in region 1 that brings nothing
bundle() {
    two 7
    four "$1"
    byte 1
    byte 0
    byte 0
}

# COUNT: an archive with so many bundles in region 1
with_bundles() {
    byte 1
    byte 1
    byte "$1"
    location=1
    while [ "$location" -le "$1" ]; do
        bundle "$location"
        location=$((location + 1))
    done
    byte 0
}

# SOURCE TARGET: a connection whose filter is on standard input
connection() {
    cat > "$work/filter"
    two $((2 + $(wc -c < "$work/filter")))
    byte "$1"
    byte "$2"
    cat "$work/filter"
}

title='An arrow leads from a region to one that it imports from;\nthe box on it shows what its filter passes.\n '
framed "$work/no-entries" < /dev/null

same 'g with names, the whole text' "$(draw examples/g.archive examples/g.names)" "$(cat crates/drawing/stdout)"
same "the gate's sheet" "$(cmp examples/g.names crates/drawing/data/g.names && echo same)" same
same 'g without a sheet' "$(draw examples/g.archive | content)" "digraph regions {
  label=\"regions: 3, bundles: 3, connections: 2\\n$title\";
  0 [C, label=\"region 0\\l\\lbundle 10\\l\"];
  1 [C, label=\"region 1\\l\\lbundle 20\\l- packages: 1\\l\"];
  2 [C, label=\"region 2\\l\\lbundle 30\\l- packages: 1, 2, 3\\l\"];
  \"0-1\" [C, label=\"0 -> 1\\lpackages: 1, 2\\l\"];
  0 -> \"0-1\" [C, arrowhead=none];
  \"0-1\" -> 1 [C];
  \"1-2\" [C, label=\"1 -> 2\\lpackages: 1, 3\\l\"];
  1 -> \"1-2\" [C, arrowhead=none];
  \"1-2\" -> 2 [C];
}"
same 'g with no entries' "$(draw examples/g.archive "$work/no-entries")" "$(draw examples/g.archive)"
same 'no such sheet' "$(draw examples/g.archive "$work/none")" 'sheet unreadable'
same 'g with names' "$(draw examples/g.archive examples/g.names | content)" "digraph regions {
  label=\"regions: 3, bundles: 3, connections: 2\\n$title\";
  0 [C, label=\"region 0 deck\\l\\lbundle 10 aspirate\\l\"];
  1 [C, label=\"region 1 methods\\l\\lbundle 20 transfer plan\\l- package 1 water correction\\l\"];
  2 [C, label=\"region 2 corrections\\l\\lbundle 30 liquid tables\\l- package 1 water correction\\l- package 2 glycerol correction\\l- package 3 serum correction\\l\"];
  \"0-1\" [C, label=\"0 -> 1\\lpackage 1 water correction\\lpackage 2 glycerol correction\\l\"];
  0 -> \"0-1\" [C, arrowhead=none];
  \"0-1\" -> 1 [C];
  \"1-2\" [C, label=\"1 -> 2\\lpackage 1 water correction\\lpackage 3 serum correction\\l\"];
  1 -> \"1-2\" [C, arrowhead=none];
  \"1-2\" -> 2 [C];
}"
same cyclic "$(draw examples/cyclic.archive | content)" "digraph regions {
  label=\"regions: 2, bundles: 2, connections: 2\\n$title\";
  3 [C, label=\"region 3\\l\\lbundle 10\\l\"];
  4 [C, label=\"region 4\\l\\lbundle 20\\l\"];
  \"3-4\" [C, label=\"3 -> 4\\lservices: 77\\l\"];
  3 -> \"3-4\" [C, arrowhead=none];
  \"3-4\" -> 4 [C];
  \"4-3\" [C, label=\"4 -> 3\\lservices: 77\\l\"];
  4 -> \"4-3\" [C, arrowhead=none];
  \"4-3\" -> 3 [C];
}"
same empty "$(draw examples/empty.archive | content)" 'digraph regions {
  label="no regions";
}'

# version 2: region numbers above 15
same plates "$(draw examples/plates.archive | content)" "digraph regions {
  label=\"regions: 3, bundles: 3, connections: 2\\n$title\";
  0 [C, label=\"region 0\\l\\lbundle 10\\l\"];
  16 [C, label=\"region 16\\l\\lbundle 20\\l- packages: 1\\l\"];
  63 [C, label=\"region 63\\l\\lbundle 30\\l- packages: 2, 3\\l- services: 5\\l\"];
  \"0-16\" [C, label=\"0 -> 16\\lpackages: 1, 2\\l\"];
  0 -> \"0-16\" [C, arrowhead=none];
  \"0-16\" -> 16 [C];
  \"16-63\" [C, label=\"16 -> 63\\lbundles: 30\\lpackages: 2, 3\\lall services\\l\"];
  16 -> \"16-63\" [C, arrowhead=none];
  \"16-63\" -> 63 [C];
}"
{ entry 0 30 tray; entry 3 16 lift; entry 3 63 corner; } | framed "$work/places"
expect_line 'plates with names, region 16' 16 'region 16 lift\l\lbundle 20\l- packages: 1\l' examples/plates.archive "$work/places"
expect_line 'plates with names, region 63' 63 'region 63 corner\l\lbundle 30 tray\l- packages: 2, 3\l- services: 5\l' examples/plates.archive "$work/places"
expect_line 'plates with names, 16 to 63' '"16-63"' '16 -> 63\lbundle 30 tray\lpackages: 2, 3\lall services\l' examples/plates.archive "$work/places"

# version 3: G, whose picture is the same, and packages in several versions, also with names and in a list that is cut
same 'g as version 3' "$(draw examples/g-version-3.archive)" "$(draw examples/g.archive)"
same versions "$(draw examples/versions.archive | content)" "digraph regions {
  label=\"regions: 3, bundles: 3, connections: 2\\n$title\";
  0 [C, label=\"region 0\\l\\lbundle 10\\l\"];
  1 [C, label=\"region 1\\l\\lbundle 20\\l- packages: 1\\l\"];
  2 [C, label=\"region 2\\l\\lbundle 30\\l- packages: 1, 1:7, 2:3\\l- services: 5\\l\"];
  \"0-1\" [C, label=\"0 -> 1\\lpackages: 1, 2:0-2\\lall services\\l\"];
  0 -> \"0-1\" [C, arrowhead=none];
  \"0-1\" -> 1 [C];
  \"1-2\" [C, label=\"1 -> 2\\lbundles: 30\\lpackages: 1:5-9, 2:3-3\\lservices: 5\\l\"];
  1 -> \"1-2\" [C, arrowhead=none];
  \"1-2\" -> 2 [C];
}"
{ entry 1 1 water; } | framed "$work/water"
expect_line 'versions with names, region 2' 2 'region 2\l\lbundle 30\l- package 1 water\l- package 1:7 water\l- packages: 2:3\l- services: 5\l' examples/versions.archive "$work/water"
expect_line 'versions with names, 1 to 2' '"1-2"' '1 -> 2\lbundles: 30\lpackage 1:5-9 water\lpackages: 2:3-3\lservices: 5\l' examples/versions.archive "$work/water"
{
    byte 2; byte 1; byte 2
    byte 1
    two 43; four 10; byte 2; byte 6
    for version in 0 1 2 255 256 65535; do four 7; two "$version"; done
    byte 0
    byte 1
    { list; byte 5; four 1; two 0; two 0; four 2; two 0; two 65534; four 3; two 1; two 65535; four 4; two 0; two 65535; four 5; two 0; two 9; list; } | connection 1 2
} | framed "$work/ranges" 3
expect_line 'six versions' 2 'region 2\l\lbundle 10\l- packages: 7, 7:1, 7:2, 7:255 and 2 more\l' "$work/ranges"
expect_line 'five ranges' '"1-2"' '1 -> 2\lpackages: 1:0-0, 2:0-65534, 3:1-65535, 4 and 1 more\l' "$work/ranges"

# every region, and a connection to the one before it from each of the last 48
{
    byte 64
    region=0
    while [ "$region" -lt 64 ]; do byte "$region"; region=$((region + 1)); done
    byte 0
    byte 48
    region=16
    while [ "$region" -lt 64 ]; do { list; list; list; } | connection "$region" $((region - 1)); region=$((region + 1)); done
} > "$work/body"
framed "$work/every-region" 2 < "$work/body"
framed "$work/early" < "$work/body"
draw "$work/every-region" | content > "$work/text"
same 'title of every region' "$(grep -c '^  label="regions: 64, bundles: 0, connections: 48' "$work/text")" 1
same 'lines of every region' "$(grep -c . "$work/text")" $((1 + 1 + 64 + 48 * 3 + 1))
region=0
while [ "$region" -lt 64 ]; do
    expect_line "region $region of every region" "$region" "region $region\\l\\lno bundles\\l" "$work/every-region"
    region=$((region + 1))
done
same 'last line of every region' "$(tail -n 2 "$work/text")" '  "63-62" -> 62 [C];
}'
same 'every region as version 1' "$(draw "$work/early")" 'refused 17'
same 'g as version 2' "$(draw examples/refused-17-version.archive)" 'refused 17'
same 'a reversed range' "$(draw examples/refused-17-range.archive)" 'refused 17'

# the lists of the longest archive, which are cut
expect_line 'longest, region 0' 0 'region 0\l\lbundle 1000\l- packages: 0, 1, 2, 3 and 4 more\l- services: 0, 1, 2, 3 and 4 more\lbundle 1016\l- packages: 128, 129, 130, 131 and 4 more\l- services: 128, 129, 130, 131 and 4 more\lbundle 1032\l- packages: 256, 257, 258, 259 and 4 more\l- services: 256, 257, 258, 259 and 4 more\lbundle 1048\l- packages: 384, 385, 386, 387 and 4 more\l- services: 384, 385, 386, 387 and 4 more\l' examples/longest.archive
expect_line 'longest, 15 to 2' '"15-2"' '15 -> 2\lbundles: 1000, 1001, 1002, 1003 and 12 more\lpackages: 240, 241, 242, 243 and 12 more\lservices: 32, 33, 34, 35 and 12 more\l' examples/longest.archive
same 'lines of longest' "$(draw examples/longest.archive | content | grep -c .)" $((1 + 1 + 16 + 48 * 3 + 1))

# filters that pass everything and nothing, lists of four and of five, names between numbers, names in a list that is cut
{
    byte 3; byte 1; byte 2; byte 3
    byte 0
    byte 4
    { byte 0; byte 255; byte 255; } | connection 1 2
    { list 7; byte 255; list 8; } | connection 1 3
    { list; list; list; } | connection 2 1
    { list 1 2 3 4; list 1 2 3 4 5; list 1 2 3 4 5 6; } | connection 3 1
} | framed "$work/filters"
{ entry 0 2 two; entry 1 4 four; entry 2 1 one; entry 3 3 three; } | framed "$work/some"
same 'filters' "$(draw "$work/filters" "$work/some" | content | grep 'label="[0-9r]')" "  label=\"regions: 3, bundles: 0, connections: 4\\n$title\";
  1 [C, label=\"region 1\\l\\lno bundles\\l\"];
  2 [C, label=\"region 2\\l\\lno bundles\\l\"];
  3 [C, label=\"region 3 three\\l\\lno bundles\\l\"];
  \"1-2\" [C, label=\"1 -> 2\\lall packages\\lall services\\l\"];
  \"1-3\" [C, label=\"1 -> 3\\lbundles: 7\\lall packages\\lservices: 8\\l\"];
  \"2-1\" [C, label=\"2 -> 1\\lnothing\\l\"];
  \"3-1\" [C, label=\"3 -> 1\\lbundles: 1\\lbundle 2 two\\lbundles: 3, 4\\lpackages: 1, 2, 3\\lpackage 4 four\\land 1 more\\lservice 1 one\\lservices: 2, 3, 4 and 2 more\\l\"];"

# the most bundles of a region that are shown, and two more
twelve='bundle 1\lbundle 2\lbundle 3\lbundle 4\lbundle 5\lbundle 6\lbundle 7\lbundle 8\lbundle 9\lbundle 10\lbundle 11\lbundle 12\l'
with_bundles 12 | framed "$work/twelve"
with_bundles 14 | framed "$work/fourteen"
expect_line '12 bundles' 1 "region 1\\l\\l$twelve" "$work/twelve"
expect_line '14 bundles' 1 "region 1\\l\\l${twelve}and 2 bundles more\\l" "$work/fourteen"

# signs that a label writes otherwise
{ entry 0 10 'a"b\c&lt;d'; entry 3 0 '\N'; } | framed "$work/signs"
expect_line 'signs' 0 'region 0 \\N\l\lbundle 10 a\"b\\c&amp;lt;d\l' examples/g.archive "$work/signs"

# refusals: the archive comes before the sheet
: > "$work/empty"
byte 1 > "$work/cut"
{ byte 2; tail -c +2 examples/g.names; } > "$work/version-2"
head -c 20 examples/g.names > "$work/short"
{ entry 1 2 b; entry 1 2 c; } | framed "$work/twice"
for number in 15 16 17; do
    expect "refused-$number" "examples/refused-$number.archive" examples/g.names "refused $number"
    expect "refused-$number, broken sheet" "examples/refused-$number.archive" "$work/empty" "refused $number"
    same "refused-$number, no sheet" "$(draw "examples/refused-$number.archive")" "refused $number"
done
for sheet in empty cut version-2 short twice; do
    expect "sheet $sheet" examples/g.archive "$work/$sheet" 'refused 18'
done
expect 'sheet empty, no regions' examples/empty.archive "$work/empty" 'refused 18'

# an archive over 65,536 bytes: judged by its first 65,536, which have the right length
{ printf '\001\000\000\377\373'; printf '%65532s' ''; } > "$work/over"
expect '65537 bytes' "$work/over" "$work/no-entries" 'refused 17'

# FILE: its texts, sorted
texts() {
    sed -n 's/.*<text[^>]*>\(.*\)<\/text>.*/\1/p' "$1" | sed -e 's/&#45;/-/g' -e 's/&#160;/ /g' | sort
}

# NAME ARCHIVE [SHEET]: whether dot takes the picture
dot_takes() {
    name=$1
    shift
    draw "$@" > "$work/picture"
    status=0
    dot -Tsvg "$work/picture" > "$work/svg" || status=$?
    same "dot takes $name" "$status" 0
}

if [ -n "$(command -v dot)" ]; then
    for archive in examples/*.archive; do
        case $(draw "$archive") in
            refused*) ;;
            *) dot_takes "$archive" "$archive" ;;
        esac
    done
    dot_takes 'every region' "$work/every-region"
    dot_takes 'plates with names' examples/plates.archive "$work/places"
    same 'regions of plates in the SVG' "$(texts "$work/svg" | grep -c -e '^region 16 lift$' -e '^region 63 corner$')" 2
    dot_takes filters "$work/filters" "$work/some"
    dot_takes signs examples/g.archive "$work/signs"
    same 'signs in the SVG' "$(texts "$work/svg" | grep -e '^bundle 10' -e '^region 0')" 'bundle 10 a&quot;b\c&amp;lt;d
region 0 \N'
    dot_takes 'g with names' examples/g.archive examples/g.names
    same 'texts of examples/g.svg' "$(texts examples/g.svg)" "$(texts "$work/svg")"
else
    echo "$passed checks passed, $failed failed; what dot takes is left out"
    [ "$failed" -eq 0 ] || exit 1
    missing 'dot (Graphviz)'
fi
end_checks
