#!/bin/sh
# Runs ./wimboru on the examples, with wrong usage, at its builds, and to install. Without WIMBORU_LISTING, WIMBORU_DRAWING and
# WIMBORU_LIB it builds them itself. Exit status 0 where every output and status is the expected one, 1 where one is not, 2 where
# something is missing.
set -eu
root=$(cd "$(dirname "$0")/.." && pwd)
# shellcheck source=tests/functions.sh
. "$root/tests/functions.sh"

# The cases run in a copy of what ./wimboru uses, with an rt that notes how it is called and hands out what is built already.
copy() {
    listing=${WIMBORU_LISTING:-$root/target/bin/listing}
    drawing=${WIMBORU_DRAWING:-$root/target/bin/drawing}
    library=${WIMBORU_LIB:-$root/target/staticlib/libregion_host.a}
    copy_command
    cat > "$work/bin/rt" <<END
#!/bin/sh
call="\$* \${PWD##*/}"
echo "\$call" >> "$work/calls"
echo "what rt says" >&2
mkdir -p out
case \$call in
    'run listing') cp "$listing" out/listing ;;
    'run drawing') cp "$work/drawing" out/drawing ;;
    'lib region_host_c') cp "$library" out/libregion_host_c.a ;;
    *) exit 2 ;;
esac
END
    stand_in_drawing
    chmod +x "$work/bin/rt"
    : > "$work/calls"
    PATH=$work/bin:$PATH
}

# A program in the place of the drawing program, which tells what it is given: the bytes of the sheet, or `none` where it has no
# argument, or the refusal that stands in the archive.
stand_in_drawing() {
    cat > "$work/drawing" <<'END'
#!/bin/sh
refusal=$(sed -n 's/^draw refused //p')
if [ -n "$refusal" ]; then
    echo "refused $refusal"
    exit
fi
sheet=none
if [ $# -ne 0 ]; then sheet=$(od -An -v -tx1 "$1" | tr -d ' \n'); fi
printf 'digraph {\n"sheet: %s"\n}\n' "$sheet"
END
    chmod +x "$work/drawing"
}

# STATUS OUTPUT ARGUMENT...: what a call prints, and its status; a status above 1 has a message, a lower one has none
expect() {
    status=$1
    output=$2
    shift 2
    got=0
    "$work/tree/wimboru" "$@" > "$work/out" 2> "$work/err" || got=$?
    same "status of wimboru $*" "$got" "$status"
    same "output of wimboru $*" "$(cat "$work/out")" "$output"
    same "lines of messages of wimboru $*" "$(grep -c . "$work/err")" "$([ "$status" -le 1 ] && echo 0 || echo 1)"
}

# The calls of rt since the last time, in one line.
calls() {
    paste -s -d , "$work/calls"
    : > "$work/calls"
}

# COMMAND: wrong usage of a conversion, which makes no file: no name for the new archive, one that has something other than a plain
# file, or one in a folder that is not there
wrong_conversions() {
    clear_place
    ln -s "$g" "$place/link"
    ln -s none "$place/leads nowhere"
    mkfifo "$place/pipe"
    before=$(ls -Al "$place")
    expect 2 '' "$1"
    expect 2 '' "$1" "$g"
    expect 2 '' "$1" "$g" "$place/out" "$place/out"
    expect 2 '' "$1" "$g" ''
    expect 2 '' "$1" '' "$place/out"
    expect 2 '' "$1" "$work/none" "$place/out"
    expect 2 '' "$1" "$work" "$place/out"
    for wrong in "$place" "$place/" "$place/link" "$place/leads nowhere" "$place/pipe" "$place/none/out" "$place/out/" "$g/out"; do
        expect 2 '' "$1" "$g" "$wrong"
    done
    same "files after wrong usage of $1" "$(ls -Al "$place")" "$before"
}

# Wrong usage of install, which makes no file and no folder: no prefix, more than one, an option, or what is no folder and cannot
# become one.
wrong_installs() {
    clear_place
    ln -s "$g" "$place/link"
    ln -s none "$place/leads nowhere"
    cp "$g" "$place/file"
    before=$(ls -Al "$place")
    cd "$place"
    expect 2 '' install
    expect 2 '' install ''
    expect 2 '' install "$place/prefix" "$place/prefix"
    for wrong in --help "--prefix=$place/prefix" - "$place/file" file "$place/file/prefix" file/a/b link 'leads nowhere'; do
        expect 2 '' install "$wrong"
    done
    cd "$root"
    same 'files after wrong usage of install' "$(ls -Al "$place")" "$before"
}

# Wrong usage, which is told before anything is built.
usage() {
    expect 2 ''
    expect 2 '' lists "$g"
    expect 2 '' list
    expect 2 '' list "$g" "$sheet" "$sheet"
    expect 2 '' list "$g" "$work/none"
    expect 2 '' list "$work/none" "$sheet"
    expect 2 '' list "$g" "$work"
    expect 2 '' list "$g" ''
    expect 2 '' list "$work/none"
    expect 2 '' list "$work"
    expect 2 '' list ''
    expect 2 '' query "$g" 10 1
    expect 2 '' query "$g" 10 1 1 1 1
    expect 2 '' query "$g" 10 bundle 10 0
    expect 2 '' query "$g" 10 0 10 0
    expect 2 '' query "$g" 10 service 5 0
    expect 2 '' query "$g" 10 3 5 0
    expect 2 '' query "$g" 10 package 1 ''
    for wrong in x -1 ' 1' 0x10 65536 4294967295 4294967296; do
        expect 2 '' query "$g" 10 package 1 "$wrong"
    done
    expect 2 '' query "$work/none" 10 1 1
    for wrong in '' x -1 +1 ' 1' 1.0 0x10 4294967296 18446744073709551617 99999999999999999999999; do
        expect 2 '' query "$g" "$wrong" 1 1
        expect 2 '' query "$g" 10 "$wrong" 1
        expect 2 '' query "$g" 10 1 "$wrong"
    done
    expect 2 '' query "$g" 10 bundles 1
    expect 2 '' query "$g" 10 region 1
    expect 2 '' query "$g" bundle 1 1
    expect 2 '' name "$sheet" 0
    expect 2 '' name "$sheet" 0 10 10
    expect 2 '' name "$work/none" 0 10
    expect 2 '' name "$work" 0 10
    for wrong in '' x -1 ' 1' 0x10 4294967296; do
        expect 2 '' name "$sheet" "$wrong" 1
        expect 2 '' name "$sheet" 1 "$wrong"
    done
    expect 2 '' name "$sheet" regions 1
    expect 2 '' name "$sheet" 3 region
    expect 2 '' draw
    expect 2 '' draw --svg
    expect 2 '' draw "$g" "$sheet" "$sheet"
    expect 2 '' draw --png "$g" "$sheet"
    expect 2 '' draw "$work/none"
    expect 2 '' draw "$g" "$work/none"
    wrong_conversions forward
    wrong_conversions back
    wrong_installs
    same 'builds by wrong usage' "$(calls)" ''
    "$work/tree/wimboru" --help > "$work/out" 2> "$work/err"
    same 'first line of the help' "$(head -n 1 "$work/out")" 'usage: wimboru list FILE [SHEET]'
    same 'messages of the help' "$(cat "$work/err")" ''
}

# Uses every program, whatever it prints and has built.
use_all() {
    {
        "$work/tree/wimboru" list "$g" "$sheet"
        "$work/tree/wimboru" query "$g" 10 package 1
        "$work/tree/wimboru" draw "$g"
        "$work/tree/wimboru" forward "$g" "$work/forward"
        "$work/tree/wimboru" install "$work/prefix"
    } > "$work/out" 2> "$work/err"
}

# The first use builds and says so, beside the output; the next does not; a source that is newer has it built again.
builds() {
    text=$("$work/tree/wimboru" list "$g" 2> "$work/err")
    same 'output of the first use' "$text" "$listing_g"
    same 'messages of the first use' "$(cat "$work/err")" 'wimboru: proving and building listing; the first time takes some minutes
what rt says'
    same 'builds of the first list' "$(calls)" 'run listing'
    same 'output of the first query' "$("$work/tree/wimboru" query "$g" 10 package 1 2> "$work/err")" seen
    same 'builds of the first query' "$(calls)" 'lib region_host_c'
    same 'output of the first name' "$("$work/tree/wimboru" name "$sheet" region 0 2> "$work/err")" deck
    same 'builds of the first name' "$(calls)" 'lib region_host_c'
    same 'output of the first picture' "$("$work/tree/wimboru" draw "$g" 2> "$work/err")" "$picture"
    same 'builds of the first picture' "$(calls)" 'run drawing'
    same 'output of the first conversion' "$("$work/tree/wimboru" forward "$g" "$work/forward" 2> "$work/err")" ''
    same 'builds of the first conversion' "$(calls)" 'lib region_host_c'
    same 'output of the first install' "$("$work/tree/wimboru" install "$work/prefix" 2> "$work/err")" ''
    same 'builds of the first install' "$(calls)" 'lib region_host_c'
    expect 0 "$listing_g" list "$g"
    expect 0 seen query "$g" 10 package 1
    expect 0 deck name "$sheet" region 0
    expect 0 "$picture" draw "$g"
    expect 0 '' forward "$g" "$work/forward"
    expect 0 '' back "$work/forward" "$work/forward"
    expect 0 '' install "$work/prefix"
    same 'builds of later uses' "$(calls)" ''
    touch "$work/tree/crates/source"
    use_all
    same 'builds after a change' "$(calls)" "$builds_of_all"
}

# A build that fails is told, and tried again at the next use.
failed_builds() {
    touch "$work/tree/crates/source"
    mv "$work/bin/rt" "$work/bin/kept"
    printf '#!/bin/sh\nexit 1\n' > "$work/bin/rt"
    chmod +x "$work/bin/rt"
    for _ in 1 2; do
        got=0
        "$work/tree/wimboru" list "$g" > "$work/out" 2> "$work/err" || got=$?
        same 'status of a failed build' "$got" 3
        same 'output of a failed build' "$(cat "$work/out")" ''
        same 'message of a failed build' "$(tail -n 1 "$work/err")" 'wimboru: listing could not be built'
    done
    mv "$work/bin/kept" "$work/bin/rt"
    use_all
    same 'builds after a failed build' "$(calls)" "$builds_of_all"
}

lists() {
    expect 0 "$header
10 3 1 0 0
20 4 1 0 0" list "$examples/cyclic.archive"
    expect 0 "$header" list "$examples/empty.archive"
    expect 0 "$listing_plates" list "$plates"
    expect 0 "$listing_g" list "$examples/g-version-3.archive"
    expect 0 "$header
10 0 1 2 1
20 1 2 3 1
30 2 1 3 1" list "$versions"
    expect 1 "refused 15: $question_15" list "$examples/refused-15.archive"
    expect 1 "refused 16: $question_16" list "$examples/refused-16.archive"
    expect 1 "refused 17: $question_17" list "$examples/refused-17.archive"
    expect 1 "refused 17: $question_17" list "$examples/refused-17-version.archive"
    expect 1 "refused 17: $question_17" list "$examples/refused-17-range.archive"
    expect 1 "refused 17: $question_17" list "$work/early"
    expect 1 "refused 17: $question_17" list "$work/third"
    expect 1 "refused 15: $question_15" list "$work/fourth"
    same 'lines of longest' "$("$work/tree/wimboru" list "$examples/longest.archive" | grep -c .)" 65
}

queries() {
    expect 0 seen query "$g" 10 1 1
    expect 0 hidden query "$g" 10 package 3
    expect 0 hidden query "$g" 20 bundle 30
    expect 0 seen query "$g" 10 bundle 10
    expect 0 seen query "$examples/longest.archive" 1000 service 0
    expect 0 hidden query "$examples/longest.archive" 1000 service 8
    expect 0 hidden query "$g" 20 0 30
    expect 0 seen query "$g" 010 0 0000000000000000000010
    expect 0 hidden query "$examples/cyclic.archive" 10 service 77
    expect 0 hidden query "$g" 10 2 4294967295
    expect 0 hidden query "$examples/longest.archive" 1000 1 16
    expect 0 seen query "$examples/longest.archive" 1000 1 8
    expect 1 "refused 12: $question_12" query "$g" 11 1 1
    expect 1 "refused 13: $question_13" query "$g" 10 3 1
    expect 1 "refused 13: $question_13" query "$g" 10 4294967295 1
    expect 1 "refused 15: $question_15" query "$examples/refused-15.archive" 10 1 1
    expect 1 "refused 16: $question_16" query "$examples/refused-16.archive" 10 1 1
    expect 1 "refused 17: $question_17" query "$examples/refused-17.archive" 10 1 1
    expect 0 seen query "$plates" 10 package 2
    expect 0 hidden query "$plates" 10 package 3
    expect 0 hidden query "$plates" 10 service 5
    expect 0 seen query "$plates" 20 service 5
    expect 0 seen query "$plates" 20 bundle 30
    expect 1 "refused 12: $question_12" query "$plates" 63 1 1
    expect 1 "refused 17: $question_17" query "$examples/refused-17-version.archive" 10 1 1
    expect 1 "refused 17: $question_17" query "$examples/refused-17-range.archive" 10 1 1
    expect 1 "refused 17: $question_17" query "$work/early" 10 1 1
    expect 1 "refused 17: $question_17" query "$work/third" 10 1 1
    expect 1 "refused 15: $question_15" query "$work/fourth" 10 1 1
}

# The version of a package, 0 where it is left out; in files of versions 1 and 2 every package has version 0.
versions() {
    expect 0 seen query "$g" 10 package 1 0
    expect 0 hidden query "$g" 10 package 1 1
    expect 0 hidden query "$g" 10 1 1 65535
    expect 0 seen query "$plates" 10 package 2 0
    expect 0 hidden query "$plates" 10 package 2 7
    expect 0 seen query "$examples/g-version-3.archive" 20 package 3
    expect 0 hidden query "$examples/g-version-3.archive" 20 package 3 1
    expect 0 seen query "$versions" 10 package 1
    expect 0 seen query "$versions" 10 package 1 7
    expect 0 seen query "$versions" 10 01 1 0000000000000000000007
    expect 0 hidden query "$versions" 10 package 1 8
    expect 0 hidden query "$versions" 10 package 2 3
    expect 0 hidden query "$versions" 10 package 2
    expect 0 seen query "$versions" 20 package 2 3
    expect 0 hidden query "$versions" 20 package 2 65535
    expect 1 "refused 12: $question_12" query "$versions" 11 package 1 7
}

# Makes the folder for what conversions write an empty one.
clear_place() {
    rm -rf "$place"
    mkdir "$place"
}

# FILE OTHER: says `same` where two files have the same bytes, else where they differ
compared() {
    if cmp "$1" "$2" 2>&1; then echo same; fi
}

# COMMAND FILE OTHER: a conversion gives the bytes of another file, where nothing was and over a longer file, and leaves no others
converts() {
    clear_place
    for _ in 1 2; do
        expect 0 '' "$1" "$2" "$place/out"
        same "bytes by $1 of $2" "$(compared "$place/out" "$3")" same
        same "files after $1 of $2" "$(ls -A "$place")" out
        head -c 20000 /dev/zero > "$place/out"
    done
}

# COMMAND FILE NUMBER QUESTION: a conversion that is refused makes no file, and leaves one that is there
refuses() {
    clear_place
    expect 1 "refused $3: $4" "$1" "$2" "$place/out"
    same "files after a refused $1 of $2" "$(ls -A "$place")" ''
    cp "$sheet" "$place/out"
    before=$(ls -Ali "$place")
    expect 1 "refused $3: $4" "$1" "$2" "$place/out"
    same "files after a refused $1 of $2 to a file" "$(ls -Ali "$place")" "$before"
    same "bytes after a refused $1 of $2 to a file" "$(compared "$place/out" "$sheet")" same
}

# Each way, on the two files of a graph. Those of version 3 that are no examples are made here.
conversions() {
    printf '\003\000\000\000\003\000\000\000' > "$work/empty"
    { printf '\003'; tail -c +2 "$examples/cyclic.archive"; } > "$work/cyclic"
    cp "$examples/g-version-3.archive" "$work/g"
    for file in plates longest; do
        "$work/tree/wimboru" forward "$examples/$file.archive" "$work/$file"
    done
    same 'front of plates, forward' "$(od -An -v -tx1 -N 9 "$work/plates" | tr -d ' \n')" 03000000690300103f
    same 'front of longest, forward' "$(od -An -v -tx1 -N 6 "$work/longest" | tr -d ' \n')" 03000047a310
    for file in empty cyclic g plates longest; do
        converts forward "$examples/$file.archive" "$work/$file"
        converts back "$work/$file" "$examples/$file.archive"
    done
    expect 0 "$listing_plates" list "$work/plates"
}

refused_conversions() {
    head -c 107 "$examples/g-version-3.archive" > "$work/short"
    for file in "$examples/g-version-3.archive" "$versions" "$examples/refused-15.archive" "$examples/refused-17-range.archive" \
        "$work/fourth" /dev/null; do
        refuses forward "$file" 15 "$question_15_forward"
    done
    refuses forward "$examples/refused-16.archive" 16 "$question_16"
    refuses forward "$examples/refused-17.archive" 17 "$question_17"
    refuses forward "$examples/refused-17-version.archive" 17 "$question_17"
    refuses forward "$work/early" 17 "$question_17"
    for file in "$g" "$plates" "$examples/refused-15.archive" "$examples/refused-16.archive" "$examples/refused-17.archive" \
        "$work/fourth" /dev/null; do
        refuses back "$file" 15 "$question_15_back"
    done
    refuses back "$work/short" 16 "$question_16"
    refuses back "$examples/refused-17-range.archive" 17 "$question_17"
    refuses back "$work/third" 17 "$question_17"
    refuses back "$versions" 21 "$question_21"
}

# OUT is FILE: it becomes what it is converted to, or stays.
conversions_in_place() {
    clear_place
    cp "$g" "$place/same"
    expect 1 "refused 15: $question_15_back" back "$place/same" "$place/same"
    same 'bytes after a refused back in place' "$(compared "$place/same" "$g")" same
    expect 0 '' forward "$place/same" "$place/same"
    same 'bytes by forward in place' "$(compared "$place/same" "$examples/g-version-3.archive")" same
    expect 1 "refused 15: $question_15_forward" forward "$place/same" "$place/same"
    same 'bytes after a refused forward in place' "$(compared "$place/same" "$examples/g-version-3.archive")" same
    expect 0 '' back "$place/same" "$place/same"
    same 'bytes by back in place' "$(compared "$place/same" "$g")" same
    same 'files after conversions in place' "$(ls -A "$place")" same
}

# WORDS BLOCKS FILE OUT: a conversion that fails, where a file may have so many blocks, is told, makes no file, and leaves those
# that are there
fails() {
    before=$(ls -Ali "$place")
    got=0
    (ulimit -f "$2" && "$work/tree/wimboru" forward "$3" "$4") > "$work/out" 2> "$work/err" || got=$?
    same "status of a conversion $1" "$got" 3
    same "output of a conversion $1" "$(cat "$work/out")" ''
    same "messages of a conversion $1" "$(cut -d ' ' -f 1 "$work/err" | paste -s -d ' ' -)" 'convert: wimboru:'
    same "files after a conversion $1" "$(ls -Ali "$place")" "$before"
}

# WORDS SCRIPT: a script that runs the program for conversions, $1, with a folder, $2, and an archive, $3: it fails, says so, makes no
# file, and leaves those that are there
stops() {
    before=$(ls -Ali "$place")
    got=0
    sh -c "$2" sh "$work/tree/target/wimboru/convert" "$place" "$g" > "$work/out" 2> "$work/err" || got=$?
    same "status of the program for conversions $1" "$got" 3
    same "output of the program for conversions $1" "$(cat "$work/out")" ''
    same "messages of the program for conversions $1" "$(cut -d ' ' -f 1 "$work/err")" convert:
    same "files after the program for conversions $1" "$(ls -Ali "$place")" "$before"
}

# Root may write to every folder; in one that is gone nobody can make a file.
failed_conversions() {
    clear_place
    cp "$sheet" "$place/out"
    fails 'that is longer than a file may be' 8 "$examples/longest.archive" "$place/out"
    fails 'that is longer than a new file may be' 8 "$examples/longest.archive" "$place/new"
    fails 'to a name that is too long' 64 "$g" "$place/$(printf '%300s' '' | tr ' ' x)"
    # shellcheck disable=SC2016
    stops 'in a folder that is gone' 'mkdir "$2/gone" && cd "$2/gone" && rmdir "$2/gone" && exec "$1" forward out < "$3"'
    # shellcheck disable=SC2016
    stops 'of what cannot be read' 'exec "$1" forward "$2/out" <&-'
    chmod a-w "$place"
    [ -w "$place" ] || fails 'to a folder that cannot be written' 64 "$g" "$place/out"
    chmod u+w "$place"
    same 'bytes after conversions that failed' "$(compared "$place/out" "$sheet")" same
}

# The program puts a new file in the place of OUT, which has the permissions that the umask leaves. It is made in the folder of OUT,
# under a name that no file there has. The program prints nothing.
new_files() {
    clear_place
    mask=$(umask)
    umask 027
    expect 0 '' forward "$g" "$place/out"
    umask "$mask"
    same 'permissions by the umask' "$(find "$place/out" -perm 640)" "$place/out"
    # shellcheck disable=SC2016
    sh -c 'mkdir "$1/gone" && cd "$1/gone" && rmdir "$1/gone" && exec "$2" back "$1/out" < "$1/out"' sh "$place" \
        "$work/tree/target/wimboru/convert"
    same 'bytes by back from a folder that is gone' "$(compared "$place/out" "$g")" same
    # shellcheck disable=SC2016
    sh -c 'echo kept > "$1/.wimboru-$$-0"; exec "$2" forward "$1/out"' sh "$place" "$work/tree/target/wimboru/convert" \
        < "$g" > "$work/out"
    same 'output of the program for conversions' "$(cat "$work/out")" ''
    same 'bytes by the program for conversions' "$(compared "$place/out" "$examples/g-version-3.archive")" same
    same 'a file with the name of a new file' "$(cat "$place"/.wimboru-*)" kept
}

# Sheets: names that look like a refusal, need quotes in a picture, or have spaces at their ends; no entries; a byte too many; and
# 2,000 names of 40 bytes, for the bundles from 0 on.
make_sheets() {
    {
        printf '\001\000\000\000\115'
        printf '\000\010\000\000\000\000\012arm'
        printf '\000\017\000\000\000\000\024refused 19'
        printf '\000\016\001\000\000\000\001say "a\\b"'
        printf '\000\011\003\000\000\000\000deck'
        printf '\000\010\003\000\000\000\002 2 '
        printf '\000\013\003\000\000\000\077corner'
    } > "$sheet"
    printf '\001\000\000\000\000' > "$no_entries"
    { cat "$sheet"; printf x; } > "$broken"
    {
        printf '\001\000\001\157\060'
        number=0
        while [ "$number" -lt 2000 ]; do
            high=$((number / 256))
            low=$((number % 256))
            printf "\\000\\055\\000\\000\\000\\00$high\\$((low / 64))$((low / 8 % 8))$((low % 8))%-40d" "$number"
            number=$((number + 1))
        done
    } > "$work/large"
}

# Archives: one of version 2 as version 1, as version 3, and as no version.
make_archives() {
    { printf '\001'; tail -c +2 "$plates"; } > "$work/early"
    { printf '\003'; tail -c +2 "$plates"; } > "$work/third"
    { printf '\004'; tail -c +2 "$plates"; } > "$work/fourth"
}

names() {
    expect 0 arm name "$sheet" bundle 10
    expect 0 arm name "$sheet" 0 10
    expect 0 'refused 19' name "$sheet" bundle 20
    expect 0 'say "a\b"' name "$sheet" package 1
    expect 0 deck name "$sheet" region 0
    expect 0 deck name "$sheet" 03 000000000000
    expect 0 ' 2 ' name "$sheet" 3 2
    expect 0 corner name "$sheet" region 63
    expect 0 '1999                                    ' name "$work/large" bundle 1999
    expect 1 "refused 19: $question_19" name "$work/large" bundle 2000
    expect 1 "refused 19: $question_19" name "$sheet" service 1
    expect 1 "refused 19: $question_19" name "$sheet" region 4294967295
    expect 1 "refused 19: $question_19" name "$sheet" 4 0
    expect 1 "refused 19: $question_19" name "$sheet" 4294967295 0
    expect 1 "refused 19: $question_19" name "$no_entries" region 0
    expect 1 "refused 18: $question_18" name "$broken" region 0
    expect 1 "refused 18: $question_18" name "$broken" 4 0
    expect 1 "refused 18: $question_18" name "$g" region 0
    expect 1 "refused 18: $question_18" name /dev/null region 0
}

named_lists() {
    tab=$(printf '\t')
    titles="$header${tab}asker-name${tab}region-name"
    expect 0 "$titles
10 0 1 1 0${tab}arm${tab}deck
20 1 1 2 0${tab}refused 19${tab}-
30 2 1 3 0${tab}-${tab} 2 " list "$g" "$sheet"
    expect 0 "$titles
10 0 1 1 0${tab}-${tab}-
20 1 1 2 0${tab}-${tab}-
30 2 1 3 0${tab}-${tab}-" list "$g" "$no_entries"
    expect 0 "$titles" list "$examples/empty.archive" "$sheet"
    expect 0 "$titles
10 0 1 2 0${tab}arm${tab}deck
20 16 2 3 1${tab}refused 19${tab}-
30 63 1 2 1${tab}-${tab}corner" list "$plates" "$sheet"
    expect 1 "refused 17: $question_17" list "$examples/refused-17-version.archive" "$broken"
    "$work/tree/wimboru" list "$examples/longest.archive" "$work/large" > "$work/longest"
    same 'lines of longest with names' "$(grep -c "${tab}10..  .*$tab-" "$work/longest")" 64
    expect 1 "refused 18: $question_18" list "$g" "$broken"
    expect 1 "refused 18: $question_18" list "$g" /dev/null
    expect 1 "refused 16: $question_16" list "$examples/refused-16.archive" "$sheet"
    expect 1 "refused 16: $question_16" list "$examples/refused-16.archive" "$broken"
}

# What goes to the drawing program and to dot, by programs in their places.
draws() {
    echo 'draw refused 18' > "$work/refused"
    expect 0 "$picture" draw "$g"
    expect 0 "$(echo "$picture" | sed 's/none/0100000000/')" draw "$g" "$no_entries"
    expect 0 "$(echo "$picture" | sed 's/none//')" draw "$g" /dev/null
    expect 0 "digraph {
\"sheet: $(od -An -v -tx1 "$sheet" | tr -d ' \n')\"
}" draw "$g" "$sheet"
    expect 1 "refused 18: $question_18" draw "$work/refused" "$sheet"
    printf '#!/bin/sh\necho "svg $*"\ncat\n' > "$work/bin/dot"
    chmod +x "$work/bin/dot"
    expect 0 "svg -Tsvg
$picture" draw --svg "$g"
    expect 1 "refused 18: $question_18" draw --svg "$work/refused"
    printf '#!/bin/sh\nexit 1\n' > "$work/bin/dot"
    expect 3 '' draw --svg "$g" "$sheet"
    rm "$work/bin/dot"
    without_dot
}

# The commands that ./wimboru and these tests use, without dot.
without_dot() {
    mkdir "$work/few"
    for program in cat dirname find grep head od sed tr; do
        ln -s "$(command -v "$program")" "$work/few"
    done
    path=$PATH
    # shellcheck disable=SC2123
    PATH=$work/few
    expect 3 '' draw --svg "$g"
    expect 0 "$picture" draw "$g"
    PATH=$path
}

# The drawing program itself.
drawn() {
    cp "$drawing" "$work/drawing"
    touch "$work/tree/crates/source"
    use_all
    : > "$work/calls"
    same 'first word of a picture' "$("$work/tree/wimboru" draw "$g" "$sheet" | head -n 1 | cut -d ' ' -f 1)" digraph
    "$work/tree/wimboru" draw "$g" "$sheet" > "$work/with"
    for text in deck arm; do
        same "$text in the picture" "$(grep -q "$text" "$work/with" && echo yes)" yes
    done
    expect 0 "$("$work/tree/wimboru" draw "$g" "$no_entries")" draw "$g"
    same 'region 63 in a picture' "$("$work/tree/wimboru" draw "$plates" | grep -c 'label="region 63\\l')" 1
    same 'region 63 in a picture with names' "$("$work/tree/wimboru" draw "$plates" "$sheet" | grep -c 'label="region 63 corner\\l')" 1
    expect 1 "refused 15: $question_15" draw "$examples/refused-15.archive"
    expect 1 "refused 16: $question_16" draw "$examples/refused-16.archive" "$broken"
    expect 1 "refused 17: $question_17" draw "$examples/refused-17.archive" "$sheet"
    expect 1 "refused 17: $question_17" draw "$examples/refused-17-version.archive"
    same 'a version in a picture' "$("$work/tree/wimboru" draw "$versions" | grep -c 'packages: 1, 1:7, 2:3')" 1
    same 'versions in a picture' "$("$work/tree/wimboru" draw "$versions" | grep -c 'packages: 1:5-9, 2:3-3')" 1
    expect 1 "refused 17: $question_17" draw "$examples/refused-17-range.archive"
    expect 1 "refused 17: $question_17" draw "$work/early" "$sheet"
    expect 1 "refused 17: $question_17" draw "$work/third"
    expect 1 "refused 15: $question_15" draw "$work/fourth"
    expect 1 "refused 18: $question_18" draw "$g" "$broken"
    expect 1 "refused 18: $question_18" draw "$g" /dev/null
    same 'a picture with a sheet of 94 KB' "$("$work/tree/wimboru" draw "$g" "$work/large" | grep -c 'bundle 20 20')" 1
    { printf '\001\000\003\377\372'; head -c 262138 /dev/zero; } > "$work/longer"
    expect 1 "refused 18: $question_18" draw "$g" "$work/longer"
    printf x >> "$work/longer"
    expect 2 '' draw "$g" "$work/longer"
    [ -z "$(command -v dot)" ] ||
        same 'a picture by dot' "$("$work/tree/wimboru" draw --svg "$g" "$sheet" | grep -c '<svg')" 1
}

# Files of any name and length, and from another folder. One byte over 65,536 counts for the query alone.
files() {
    cp "$g" "$work/a name"
    : > "$work/no bytes"
    { printf '\001\000\000\377\373'; printf '%65532s' ''; } > "$work/over"
    cd "$work"
    expect 0 "$listing_g" list 'a name'
    expect 0 seen query 'a name' 10 1 1
    expect 1 "refused 15: $question_15" list 'no bytes'
    expect 1 "refused 15: $question_15" query 'no bytes' 10 1 1
    expect 1 "refused 17: $question_17" list over
    expect 1 "refused 16: $question_16" query over 10 1 1
    cat over over over > longer
    expect 1 "refused 17: $question_17" list longer
    expect 1 "refused 16: $question_16" query longer 10 1 1
    expect 1 "refused 16: $question_16" forward over new
    expect 1 "refused 16: $question_16" forward longer new
    same 'file of refused conversions' "$([ ! -e new ] || echo there)" ''
}

# Conversions of and to files of any name, in this folder and in another.
names_of_files() {
    clear_place
    cd "$place"
    mkdir 'a folder' ./-folder
    for name in 'a name' ' ' -name -n -- - ! = '(' '*' 'a\name' 'a folder/a name' '-folder/-name' "$place/a name"; do
        case $name in /*) path=$name ;; *) path=./$name ;; esac
        expect 0 '' forward "$g" "$name"
        same "bytes by forward to $name" "$(compared "$path" "$examples/g-version-3.archive")" same
        expect 0 '' back "$name" "$name"
        same "bytes by back in place of $name" "$(compared "$path" "$g")" same
        rm -f "$path"
    done
    same 'files after conversions to names' "$(find . -type f)" ''
}

# The files that are installed, in order.
files_of_install() {
    {
        echo ./lib/libwimboru.a
        echo ./lib/pkgconfig/wimboru.pc
        echo ./lib/cmake/Wimboru/WimboruConfig.cmake
        echo ./lib/cmake/Wimboru/WimboruConfigVersion.cmake
        (cd "$root" && find ./include -type f)
    } | sort
}

# PREFIX: has what is installed and nothing else, whole, with the version of the interface in the place for it
installed() {
    same "files in $1" "$(cd "$1" && find . ! -type d | sort)" "$(files_of_install)"
    same "library in $1" "$(compared "$1/lib/libwimboru.a" "$library")" same
    for header in "$root"/include/*; do
        same "${header##*/} in $1" "$(compared "$1/include/${header##*/}" "$header")" same
    done
    number=$(awk '$1 == "#define" && $2 == "WIMBORU_VERSION" { print $3 }' "$root/include/wimboru.h")
    same "version for pkg-config in $1" "$(grep -c "^Version: $number\$" "$1/lib/pkgconfig/wimboru.pc")" 1
    same "version for CMake in $1" "$(grep -c "VERSION $number)" "$1/lib/cmake/Wimboru/WimboruConfigVersion.cmake")" 1
    same "places for a version in $1" "$(grep -r @ "$1/lib/pkgconfig" "$1/lib/cmake")" ''
}

# Into folders that are there or not, of any name, from another folder, and over an earlier install; other files stay.
installs() {
    clear_place
    cd "$place"
    mkdir there
    for prefix in 'a folder' there new/folder './-folder' "$place/from the root/" "$place/*"; do
        expect 0 '' install "$prefix"
        installed "$prefix"
    done
    cd 'a folder'
    # shellcheck disable=SC2016
    find . -type f -exec sh -c 'echo old > "$1"' sh {} \;
    rm lib/pkgconfig/wimboru.pc
    ln -s ../libwimboru.a lib/pkgconfig/wimboru.pc
    expect 0 '' install .
    installed "$place/a folder"
    echo kept > include/other.h
    expect 0 '' install "$place/a folder"
    same 'another file after an install' "$(cat include/other.h)" kept
    cd "$root"
    mask=$(umask)
    umask 027
    expect 0 '' install "$place/mask"
    umask "$mask"
    same 'permissions of files by the umask' "$(find "$place/mask" -type f ! -perm 640)" ''
    same 'permissions of folders by the umask' "$(find "$place/mask" -type d ! -perm 750)" ''
}

# WORDS SCRIPT: a script that runs ./wimboru, $1, with a folder, $2, and a folder of programs, $3: the install fails, is told, makes
# no file, and leaves those that are there
fails_to_install() {
    before=$(find "$place" ! -type d -exec ls -dli {} +)
    got=0
    sh -c "$2" sh "$work/tree/wimboru" "$place" "$work/killing" > "$work/out" 2> "$work/err" || got=$?
    same "status of an install $1" "$got" 3
    same "output of an install $1" "$(cat "$work/out")" ''
    same "message of an install $1" "$(tail -n 1 "$work/err" | cut -d ' ' -f 1)" wimboru:
    same "files after an install $1" "$(find "$place" ! -type d -exec ls -dli {} +)" "$before"
}

# What cannot be written. The library and the headers have more than 8 blocks, and what is written before them has fewer.
# shellcheck disable=SC2016
unwritten_installs() {
    clear_place
    fails_to_install 'that has longer files than may be' 'ulimit -f 8 && exec "$1" install "$2/new"'
    expect 0 '' install "$place/prefix"
    fails_to_install 'over another that has longer files than may be' 'ulimit -f 8 && exec "$1" install "$2/prefix"'
    mkdir -p "$place/taken/lib/libwimboru.a" "$place/blocked" "$place/closed"
    fails_to_install 'where a folder has the name of a file' 'exec "$1" install "$2/taken"'
    : > "$place/blocked/lib"
    fails_to_install 'where a file has the name of a folder' 'exec "$1" install "$2/blocked"'
    chmod a-w "$place/closed"
    [ -w "$place/closed" ] || fails_to_install 'to a folder that cannot be written' 'exec "$1" install "$2/closed"'
    got=0
    sh -c 'echo kept > "$2/prefix/lib/libwimboru.a.$$"; exec "$1" install "$2/prefix"' sh "$work/tree/wimboru" "$place" \
        2> "$work/err" || got=$?
    same 'status of an install where a file has the name of a new file' "$got" 3
    same 'a file with the name of a new file' "$(cat "$place"/prefix/lib/libwimboru.a.*)" kept
}

# What stops on the way: a signal, or a source that is missing.
# shellcheck disable=SC2016
stopped_installs() {
    clear_place
    expect 0 '' install "$place/prefix"
    mkdir "$work/killing"
    printf '#!/bin/sh\nkill -TERM "$PPID"\n' > "$work/killing/cat"
    chmod +x "$work/killing/cat"
    fails_to_install 'that gets a signal' 'PATH=$3:$PATH exec "$1" install "$2/prefix"'
    mv "$work/tree/include/wimboru.h" "$work/tree/include/other.h"
    fails_to_install 'without the header' 'exec "$1" install "$2/prefix"'
    mv "$work/tree/include/other.h" "$work/tree/include/wimboru.h"
    mv "$work/tree/packaging" "$work/packaging"
    fails_to_install 'without what pkg-config and CMake read' 'exec "$1" install "$2/prefix"'
    mv "$work/packaging" "$work/tree/packaging"
}

examples=$root/examples
g=$examples/g.archive
plates=$examples/plates.archive
versions=$examples/versions.archive
header='asker region bundles packages services'
listing_g="$header
10 0 1 1 0
20 1 1 2 0
30 2 1 3 0"
listing_plates="$header
10 0 1 2 0
20 16 2 3 1
30 63 1 2 1"
place=$work/place
sheet=$work/sheet
no_entries="$work/no entries"
broken="$work/broken sheet"
picture='digraph {
"sheet: none"
}'
builds_of_all='run listing,lib region_host_c,lib region_host_c,run drawing,lib region_host_c,lib region_host_c'
question_12=$(tools/words --question 12)
question_13=$(tools/words --question 13)
question_15=$(tools/words --question 15 '1, 2 or 3')
question_15_forward=$(tools/words --question 15 '1 or 2')
question_15_back=$(tools/words --question 15 3)
question_16=$(tools/words --question 16)
question_17=$(tools/words --question 17)
question_18=$(tools/words --question 18)
question_19=$(tools/words --question 19)
question_21=$(tools/words --question 21)
need "${CC:-cc}" 'Debian: gcc'
make_sheets
make_archives
if [ -z "$WIMBORU_LISTING" ] || [ -z "$WIMBORU_DRAWING" ] || [ -z "$WIMBORU_LIB" ]; then
    need rt 'the Rattle kit'
    same 'list, built here' "$("$root/wimboru" list "$g")" "$listing_g"
    same 'query, built here' "$("$root/wimboru" query "$g" 10 package 1)" seen
    same 'name, built here' "$("$root/wimboru" name "$sheet" region 0)" deck
    same 'picture, built here' "$("$root/wimboru" draw "$g" | head -n 1)" 'digraph regions {'
    same 'conversion, built here' "$("$root/wimboru" forward "$g" "$work/forward")" ''
    same 'bytes of a conversion, built here' "$(compared "$work/forward" "$examples/g-version-3.archive")" same
    same 'install, built here' "$("$root/wimboru" install "$work/built")" ''
    same 'library of an install, built here' "$(compared "$work/built/lib/libwimboru.a" target/staticlib/libregion_host.a)" same
fi
copy
usage
builds
failed_builds
lists
queries
versions
names
named_lists
draws
drawn
conversions
refused_conversions
conversions_in_place
failed_conversions
new_files
files
names_of_files
installs
unwritten_installs
stopped_installs
end_checks
