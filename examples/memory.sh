#!/bin/sh
# Refused memory, for people, outside the gate: each command is run once for each request for memory that it makes, and that request is refused. The
# run ends as the one that gets all its memory does, with the same bytes, or with status 2 (no memory), 3 or 4 (a port that had no memory for its
# buffer), and then each output is a prefix of what it would be. Prints a line for each command, with how many runs ended with which status.
#
#   examples/memory.sh [PROGRAM]        PROGRAM is the built program; that of workshop.sh beside this folder if absent
#
# It needs a C compiler, for the library that refuses.
here=$(cd "$(dirname "$0")" && pwd) || exit 100
program=${1:-$here/../crates/workshop_main/out/workshop_main}
case $program in
    /*) ;;
    *) program=$PWD/$program ;;
esac
if [ ! -x "$program" ]; then
    echo "memory: there is no program $program" >&2
    exit 100
fi
work=$(mktemp -d) || exit 100
cd "$work" || exit 100
trap 'rm -rf "$work"' EXIT

cat >refuse.c <<'END'
#define _GNU_SOURCE
#include <dlfcn.h>
#include <errno.h>
#include <fcntl.h>
#include <stdio.h>
#include <stdlib.h>
#include <unistd.h>
static long calls, wanted = -1;
static void *(*next_malloc)(size_t), *(*next_calloc)(size_t, size_t), *(*next_realloc)(void *, size_t);
static void *(*next_aligned)(size_t, size_t);
static int (*next_memalign)(void **, size_t, size_t);
__attribute__((constructor)) static void begin(void) {
    next_malloc = dlsym(RTLD_NEXT, "malloc");
    next_calloc = dlsym(RTLD_NEXT, "calloc");
    next_realloc = dlsym(RTLD_NEXT, "realloc");
    next_aligned = dlsym(RTLD_NEXT, "aligned_alloc");
    next_memalign = dlsym(RTLD_NEXT, "posix_memalign");
    char *number = getenv("REFUSE");
    if (number) wanted = atol(number);
    calls = 0;
}
__attribute__((destructor)) static void end(void) {
    int file = open("calls", O_WRONLY | O_CREAT | O_TRUNC, 0644);
    dprintf(file, "%ld\n", calls);
    close(file);
}
static int refuses(void) {
    if (++calls != wanted) return 0;
    errno = ENOMEM;
    return 1;
}
void *malloc(size_t size) {
    if (!next_malloc) begin();
    return refuses() ? 0 : next_malloc(size);
}
void *calloc(size_t count, size_t size) {
    if (!next_calloc) return 0;
    return refuses() ? 0 : next_calloc(count, size);
}
void *realloc(void *old, size_t size) {
    if (!next_realloc) begin();
    return refuses() ? 0 : next_realloc(old, size);
}
void *aligned_alloc(size_t alignment, size_t size) {
    if (!next_aligned) begin();
    return refuses() ? 0 : next_aligned(alignment, size);
}
int posix_memalign(void **result, size_t alignment, size_t size) {
    if (!next_memalign) begin();
    return refuses() ? ENOMEM : next_memalign(result, alignment, size);
}
END
cc -O1 -shared -fPIC -o refuse.so refuse.c -ldl || exit 100
bad=0

# Whether the first file is a prefix of the second; one that isn't there has no bytes.
is_prefix() {
    [ -e "$1" ] || return 0
    length=$(wc -c <"$1")
    [ "$length" -le "$(wc -c <"$2")" ] && head -c "$length" "$2" | cmp -s - "$1"
}

wrong() {
    bad=$((bad + 1))
    echo "memory: NOT as it should be: $1" >&2
}

# The program with request NUMBER refused, and its text in the file text: refused NUMBER WORD ..
refused() {
    number=$1
    shift
    timeout 60 env REFUSE="$number" LD_PRELOAD="$work/refuse.so" "$program" "$@" >text 2>line
}

# each NAME OUTPUTS WORD ..: all runs of these words, which write the files OUTPUTS.
each() {
    name=$1
    outputs="text $2"
    shift 2
    refused 0 "$@" || wrong "$name without a refusal"
    requests=$(cat calls)
    for output in $outputs; do mv "$output" "whole.$output"; done
    same=0 memory=0 read=0 write=0 other=0 number=0
    while [ $number -lt "$requests" ]; do
        number=$((number + 1))
        for output in $outputs; do rm -f "$output"; done
        refused $number "$@"
        case $? in
            0) same=$((same + 1)) && for output in $outputs; do cmp -s "$output" "whole.$output" || wrong "$name at request $number, $output"; done ;;
            2) memory=$((memory + 1)) ;;
            3) read=$((read + 1)) ;;
            4) write=$((write + 1)) ;;
            *) other=$((other + 1)) && wrong "$name at request $number: $(cat line)" ;;
        esac
        for output in $outputs; do is_prefix "$output" "whole.$output" || wrong "$name at request $number, $output"; done
    done
    echo "memory: $name: $requests requests; $same runs the same, $memory no memory, $read read faults, $write write faults, $other others"
    for output in $outputs; do mv "whole.$output" "$output"; done
}

cp "$here/grey.mov" "$here/tone.wav" "$here/two_slices.pwtb" "$here/test.y4m" .
each "encode" "a.mov a.pwpf" encode test.y4m a.mov a.pwpf --budget=3000
each "encode of a group, and a proof of version 1" "g.mov g.pwpf" encode test.y4m g.mov g.pwpf --budget=3000 --group=2 --proof=1
each "decode" "a.y4m" decode a.mov a.y4m
each "check" "" check a.pwpf
each "check with pictures and movie" "" check a.pwpf test.y4m a.mov
each "reproof" "r.pwpf" reproof g.pwpf r.pwpf
each "plan" "" plan two_slices.pwtb
each "list" "" list a.mov
each "rescue" "r.mov" rescue a.mov r.mov
each "addsound" "s.mov" addsound grey.mov tone.wav s.mov
each "sound" "s.wav" sound s.mov s.wav
each "least" "l.pwlc" least two_slices.pwtb l.pwlc --cap=10
each "checkleast" "" checkleast l.pwlc
each "curve" "" curve two_slices.pwtb
each "synth" "" synth 26 10 1 0 182
if [ $bad -ne 0 ]; then
    echo "memory: $bad faults" >&2
    exit 1
fi
