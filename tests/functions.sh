# shellcheck shell=sh
# What the scripts of the tests share. A script sets `root` to the top of the repository and reads this file, which goes to the top
# and makes `work`, a folder for the script's files that is removed at its end.
#
# WIMBORU_LIB, WIMBORU_LISTING and WIMBORU_DRAWING name a static library, a listing program and a drawing program that are there;
# without them `rt` proves and builds what is needed. WIMBORU_DRIVER names the program that tests/second/run builds to run scripts
# on the engine.

# PATH: the same from any folder
absolute() {
    case $1 in '' | /*) echo "$1" ;; *) echo "$PWD/$1" ;; esac
}

WIMBORU_LIB=$(absolute "${WIMBORU_LIB:-}")
WIMBORU_LISTING=$(absolute "${WIMBORU_LISTING:-}")
WIMBORU_DRAWING=$(absolute "${WIMBORU_DRAWING:-}")
WIMBORU_DRIVER=$(absolute "${WIMBORU_DRIVER:-}")
cd "${root:?}" || exit 2
work=$(mktemp -d)
trap 'rm -rf "$work"' EXIT
passed=0
failed=0

# WORDS: ends with 2, since something is missing
missing() {
    echo "missing: $1" >&2
    exit 2
}

# COMMAND PLACE: ends with 2 where a command is not there; the place is where it comes from
need() {
    [ -n "$(command -v "$1")" ] || missing "$1 ($2)"
}

# NAME: makes it by tools/build, whose text shows where it fails
by_rt() {
    need rt 'the Rattle kit'
    tools/build "$1" > "$work/rt" 2>&1 || { tail -n 20 "$work/rt" >&2; missing "what tools/build $1 makes"; }
}

# Sets library to the static library.
provide_library() {
    library=$WIMBORU_LIB
    [ -z "$library" ] || return 0
    by_rt library
    library=$root/target/staticlib/libregion_host.a
}

# Sets listing to the listing program.
provide_listing() {
    listing=$WIMBORU_LISTING
    [ -z "$listing" ] || return 0
    by_rt listing
    listing=$root/target/bin/listing
}

# Sets drawing to the drawing program.
provide_drawing() {
    drawing=$WIMBORU_DRAWING
    [ -z "$drawing" ] || return 0
    by_rt drawing
    drawing=$root/target/bin/drawing
}

# Makes tree, a copy of what ./wimboru uses with one file for all sources of the crates, and bin, a folder for an rt in place of the
# kit's, both in work.
copy_command() {
    mkdir "$work/tree" "$work/tree/crates" "$work/bin"
    for crate in region_host_c listing drawing; do mkdir "$work/tree/crates/$crate"; done
    cp -R "$root/wimboru" "$root/crates.txt" "$root/include" "$root/packaging" "$root/tools" "$work/tree"
    : > "$work/tree/crates/source"
}

# USAGE NUMBER: ends with 2 unless a number is one from 1 on
need_count() {
    case $2 in
        '' | 0* | *[!0-9]*) echo "usage: $1" >&2; exit 2 ;;
    esac
}

# NAME GOT EXPECTED: counts a check
same() {
    if [ "$2" = "$3" ]; then
        passed=$((passed + 1))
    else
        echo "FAILED $1: got '$2' and not '$3'"
        failed=$((failed + 1))
    fi
}

# Prints how many checks passed and failed, and ends.
end_checks() {
    echo "$passed checks passed, $failed failed"
    [ "$failed" -eq 0 ] || exit 1
    exit 0
}
