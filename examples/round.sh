#!/bin/sh
# A round in all forms, for people: makes short clips, encodes, checks, decodes and compares them, and ends with one line. With ffmpeg it takes ffmpeg's test
# source, and has ffmpeg decode each movie too; without it a small script makes the pictures.
#
#   examples/round.sh [PROGRAM]        PROGRAM is workshop.sh beside this folder if absent
set -e
here=$(cd "$(dirname "$0")" && pwd)
workshop=${1:-$here/../workshop.sh}
work=$(mktemp -d)
trap 'rm -rf "$work"' EXIT
rounds=0

fail() {
    echo "round: $1" >&2
    exit 1
}

# Two pictures of 64 by 48, as Y4M with samples of 10 bits: clip CHROMA INTERLACE FILE.
clip() {
    if command -v ffmpeg >/dev/null; then
        case $2 in p) flags= ;; t) flags=,setfield=tff ;; b) flags=,setfield=bff ;; esac
        ffmpeg -v error -f lavfi -i "testsrc2=size=64x48:rate=25" -frames:v 2 -vf "format=yuv$1p10le$flags" -strict -1 -f yuv4mpegpipe -y "$3"
    else
        width=32
        if [ "$1" = 444 ]; then width=64; fi
        LC_ALL=C awk -v chroma="$1" -v mode="$2" -v width="$width" '
            function put(value) { printf "%c%c", value % 256, int(value / 256) }
            function plane(columns, turn,   x, y) {
                for (y = 0; y < 48; y++) for (x = 0; x < columns; x++) put(64 + (x * 5 + y * 7 + turn * 29) % 876)
            }
            BEGIN {
                printf "YUV4MPEG2 W64 H48 F25:1 I%s C%sp10\n", mode, chroma
                for (frame = 0; frame < 2; frame++) { printf "FRAME\n"; plane(64, frame); plane(width, frame + 3); plane(width, frame + 5) }
            }' >"$3"
    fi
}

# The greatest difference between the samples of two files of Y4M, whose bytes behind the first line number the same: difference FILE FILE.
difference() {
    for file in "$1" "$2"; do
        tail -c +"$(($(head -n 1 "$file" | wc -c) + 1))" "$file" | od -An -v -tu2 -w2 >"$file.samples"
    done
    paste "$1.samples" "$2.samples" | awk '{ d = $1 - $2; if (d < 0) d = -d; if (d > most) most = d } END { print most + 0 }'
}

for chroma in 422 444; do
    for mode in p t b; do
        clip $chroma $mode "$work/in.y4m"
        # A movie with room enough at the finest index, and one at a budget that presses.
        for words in "--budget=60000 --hi=1" "--budget=4000 --group=2" "--budget=5000 --matrix=steep --log=1"; do
            "$workshop" encode "$work/in.y4m" "$work/a.mov" "$work/a.pwpf" $words >"$work/a.txt" || fail "encode $words of $chroma $mode"
            "$workshop" check "$work/a.pwpf" >/dev/null || fail "check $words of $chroma $mode"
            "$workshop" decode "$work/a.mov" "$work/out.y4m" >/dev/null || fail "decode $words of $chroma $mode"
            # With room enough no sample is far from what it was.
            case $words in
                *--hi=1) [ "$(difference "$work/in.y4m" "$work/out.y4m")" -le 4 ] || fail "pictures differ at $words of $chroma $mode" ;;
            esac
            # The same from raw planes is the same movie, byte for byte.
            "$workshop" decode "$work/a.mov" "$work/out.raw" --form=raw >/dev/null
            "$workshop" encode "$work/out.y4m" "$work/b.mov" "$work/b.pwpf" $words >/dev/null
            "$workshop" encode "$work/out.raw" "$work/c.mov" "$work/c.pwpf" $words --raw=64x48:$chroma:10:0:25/1 --interlace=$mode >/dev/null
            cmp -s "$work/b.mov" "$work/c.mov" || fail "Y4M and raw planes differ at $words of $chroma $mode"
            # A proof of version 1, written again, is the one of version 2.
            "$workshop" encode "$work/in.y4m" "$work/a1.mov" "$work/a1.pwpf" $words --proof=1 >/dev/null
            "$workshop" reproof "$work/a1.pwpf" "$work/a2.pwpf" >/dev/null
            cmp -s "$work/a.pwpf" "$work/a2.pwpf" || fail "proofs differ at $words of $chroma $mode"
            if command -v ffmpeg >/dev/null; then
                ffmpeg -v error -i "$work/a.mov" -f null - 2>"$work/errors" && [ ! -s "$work/errors" ] || fail "ffmpeg on $words of $chroma $mode"
            fi
            rounds=$((rounds + 1))
        done
    done
done
echo "round: $rounds movies were encoded, checked, decoded and compared"
