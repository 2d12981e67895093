#!/bin/sh
# Runs the proved program with these words, in the caller's folder. It is proved and built first where it isn't built yet, or where one of its sources
# has changed. `rt ci` does that on a copy without the wrong bodies and the tests: as many crates at a time as there are processors and memory, each kept beside
# the kit as soon as it is proved. So a run that was interrupted goes on where it was, and the gate and this script never prove the same twice. RT_JOBS=N in the
# environment has N crates proved at a time. The exit status is the program's own; where this script itself fails it is 100.
#
#   workshop.sh COMMAND ...
#   workshop.sh install [PREFIX]        puts the program and its manual page below PREFIX (/usr/local if absent)
here=$(cd "$(dirname "$0")" && pwd) || exit 100
program=$here/crates/workshop_main/out/workshop_main
log=$here/crates/workshop_main/out/workshop.log

fail() {
    echo "workshop.sh: $1" >&2
    exit 100
}

# The lines of crates.txt of the program's crate and of those below it, in their order.
needed() {
    awk -F: '
        /^[a-z]/ { line[$1] = $0; below[$1] = $2; order[++count] = $1 }
        function need(name,   number, i, names) {
            if (!(name in line) || name in taken) return
            taken[name] = 1
            number = split(below[name], names, " ")
            for (i = 1; i <= number; i++) need(names[i])
        }
        END { need("workshop_main"); for (i = 1; i <= count; i++) if (order[i] in taken) print line[order[i]] }
    ' "$here/crates.txt"
}

# The program's sources in this folder, a copy of the repository: sources [FIND'S WORDS]
sources() {
    for crate in $crates; do
        find "crates/$crate/src" "crates/$crate/specs" "crates/$crate/proofs" -type f "$@"
    done 2>/dev/null
}

# A sum of what the program is made of in the folder: sum FOLDER
sum() {
    (cd "$1" && needed && sources | LC_ALL=C sort | xargs sha256sum) | sha256sum
}

# Whether the program is built of the sources as they are.
current() {
    [ -x "$program" ] || return 1
    [ -n "$(cd "$here" && find crates.txt -newer "$program" && sources -newer "$program")" ] || return 0
    [ "$(sum "$here")" = "$(cat "$program.sum" 2>/dev/null)" ] || return 1
    touch "$program"
}

# Says of each crate that is done how many are left, and puts all of rt's lines into the log.
progress() {
    left=$1
    while IFS= read -r line; do
        printf '%s\n' "$line" >>"$log"
        case $line in
            'rt: '*' NOT PROVED'*) echo "workshop.sh: ${line#rt: }" ;;
            'rt: '*' proved' | 'rt: '*' is kept: '*)
                left=$((left - 1))
                line=${line#rt: }
                echo "workshop.sh: ${line%% *} is proved, $left left"
                ;;
            'rt: '*'waiting for it'*) echo "workshop.sh: ${line#rt: }" ;;
        esac
    done >&2
}

stop() {
    if [ -n "$proving" ]; then kill "$proving" && wait "$proving"; fi 2>/dev/null
    rm -rf "$work"
}

build() {
    command -v rt >/dev/null || fail "the kit's command rt isn't there, so the program can't be built"
    proving=
    work=$(mktemp -d) || fail "no temporary folder can be made"
    trap stop EXIT
    trap 'fail "interrupted: the crates that are proved are kept, and the next call goes on from there"' HUP INT TERM
    mkdir -p "${program%/*}" "$work/.git" || fail "no folder can be made for the program"
    touch "$work/begun"
    for crate in $crates; do
        mkdir -p "$work/crates/$crate" || fail "the sources can't be copied to $work"
        for part in src specs proofs stdin stdout args status data; do
            [ ! -e "$here/crates/$crate/$part" ] || cp -R "$here/crates/$crate/$part" "$work/crates/$crate" || fail "the sources can't be copied to $work"
        done
    done
    needed >"$work/crates.txt" && cp "$here/HANDLES" "$work" || fail "the sources can't be copied to $work"
    made=$(sum "$work")
    count=$(echo "$crates" | wc -l)
    echo "workshop.sh: proving the program's $count crates; what is done is kept, so this can be interrupted" >&2
    mkfifo "$work/lines" && : >"$log" || fail "$log can't be written"
    (cd "$work" && exec rt ci >lines 2>&1 </dev/null) &
    proving=$!
    progress "$count" <"$work/lines"
    wait "$proving"
    status=$?
    proving=
    [ $status = 0 ] && [ -x "$work/crates/workshop_main/out/workshop_main" ] || fail "the program was not built: $log says why"
    # As old as the sources that it was built of: one that changed meanwhile is newer.
    cp "$work/crates/workshop_main/out/workshop_main" "$program.new" && touch -r "$work/begun" "$program.new" && echo "$made" >"$program.sum" &&
        mv "$program.new" "$program" || fail "the program can't be written to $program"
    rm -rf "$work"
    trap - EXIT HUP INT TERM
}

crates=$(needed | cut -d: -f1)
[ -n "$crates" ] || fail "crates.txt has no line of workshop_main"
current || build

if [ "$1" = install ]; then
    prefix=${2:-/usr/local}
    mkdir -p "$prefix/bin" "$prefix/share/man/man1" || fail "no folders can be made below $prefix"
    cp "$program" "$prefix/bin/workshop" || fail "the program can't be written to $prefix/bin"
    cp "$here/docs/workshop.1" "$prefix/share/man/man1/workshop.1" || fail "the manual page can't be written to $prefix/share/man/man1"
    echo "installed $prefix/bin/workshop and $prefix/share/man/man1/workshop.1"
    exit 0
fi
exec "$program" "$@"
