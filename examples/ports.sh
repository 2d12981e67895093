#!/bin/sh
# What a Unix user meets, for people, outside the gate: pipes and devices, closed and full outputs, files that are the same, names, permissions
# and signals. Prints one line for each case. A case that isn't as it should be is reported on standard error, and then the exit status is 1.
#
#   examples/ports.sh [PROGRAM]        PROGRAM is the built program; that of workshop.sh beside this folder if absent
here=$(cd "$(dirname "$0")" && pwd) || exit 100
program=${1:-$here/../crates/workshop_main/out/workshop_main}
case $program in
    /*) ;;
    *) program=$PWD/$program ;;
esac
if [ ! -x "$program" ]; then
    echo "ports: there is no program $program" >&2
    exit 100
fi
work=$(mktemp -d) || exit 100
cd "$work" || exit 100
trap 'chmod -R u+rwx "$work"; rm -rf "$work"' EXIT
command -v timeout >/dev/null || timeout() {
    shift
    "$@"
}
cases=0
bad=0

good() {
    cases=$((cases + 1))
    echo "ports: $1"
}

wrong() {
    cases=$((cases + 1))
    bad=$((bad + 1))
    echo "ports: NOT $1" >&2
}

# The program, for at most a minute: 124 is the status of a run that hangs.
run() {
    timeout 60 "$program" "$@"
}

# ended NAME STATUS WANTED LINE: the status is WANTED, and the file err has this line alone, after `workshop: `, or nothing where LINE is empty.
ended() {
    line=
    if [ -n "$4" ]; then line="workshop: $4"; fi
    if [ "$2" -ne "$3" ]; then
        wrong "$1: status $2, where $3 is right"
    elif [ "$(cat err)" != "$line" ]; then
        wrong "$1: standard error has $(head -c 200 err)"
    else
        good "$1"
    fi
}

# try NAME WANTED LINE WORD ..: a run with its standard output in the file out.
try() {
    name=$1
    wanted=$2
    told=$3
    shift 3
    run "$@" >out 2>err
    ended "$name" $? "$wanted" "$told"
}

# holds NAME COMMAND ..: the command succeeds.
holds() {
    name=$1
    shift
    if "$@"; then good "$name"; else wrong "$name"; fi
}

# Whether none of these files is there.
absent() {
    for file in "$@"; do
        [ ! -e "$file" ] || return 1
    done
}

# Whether the first file is a prefix of the second; one that isn't there has no bytes.
is_prefix() {
    [ -e "$1" ] || return 0
    length=$(wc -c <"$1")
    [ "$length" -le "$(wc -c <"$2")" ] && head -c "$length" "$2" | cmp -s - "$1"
}

# grey COUNT: pictures of 16 by 16 samples, all of them 512.
grey() {
    printf 'YUV4MPEG2 W16 H16 F25:1 Ip C422p10\n'
    count=0
    while [ $count -lt "$1" ]; do
        cat frame
        count=$((count + 1))
    done
}

{
    printf 'FRAME\n'
    count=0
    while [ $count -lt 512 ]; do
        printf '\000\002'
        count=$((count + 1))
    done
} >frame
grey 1 >grey.y4m
grey 400 >many.y4m
: >empty
: >err
cp "$here/grey.mov" grey.mov
cp "$here/tone.wav" tone.wav
cp "$here/two_slices.pwtb" two.pwtb
room="--budget=178 --hi=3"

# Plain files.
try "encode of a file" 0 "" encode grey.y4m made.mov made.pwpf $room
holds "its movie is the example" cmp -s made.mov grey.mov
holds "its text is on standard output" test "$(cat out)" = "frame 0 size 178 error 0
frames 1"
try "encode of 400 pictures" 0 "" encode many.y4m many.mov many.pwpf $room
head -c 5000 many.mov >longer.mov
try "an output that was longer" 0 "" encode grey.y4m longer.mov longer.pwpf $room
holds "is cut to the movie" cmp -s longer.mov grey.mov
try "a file that isn't there" 3 "read fault" list absent.mov
try "pictures that aren't there" 3 "read fault" encode absent.y4m new.mov new.pwpf $room
holds "make no files" absent new.mov new.pwpf
try "an empty file of pictures" 5 "pictures: Truncated at 0" encode empty new.mov new.pwpf $room
holds "makes no files" absent new.mov new.pwpf
try "an empty movie" 8 "movie: NoMoov at 0" list empty
cp grey.y4m kept
try "a movie that is refused" 8 "movie: NoMoov at 0" decode empty kept
holds "leaves the output as it was" cmp -s kept grey.y4m

# Pipes. A movie is read at offsets, which a pipe doesn't have.
cat grey.y4m | run encode - pipe.mov pipe.pwpf $room >out 2>err
ended "encode of a pipe" $? 0 ""
holds "its movie is the example" cmp -s pipe.mov grey.mov
{
    head -c 100 grey.y4m
    sleep 1
    tail -c +101 grey.y4m
} | run encode - slow.mov slow.pwpf $room >out 2>err
ended "encode of a slow pipe" $? 0 ""
holds "its movie is the example" cmp -s slow.mov grey.mov
mkfifo fifo
cat grey.y4m >fifo &
try "encode of a named pipe" 0 "" encode fifo fifo.mov fifo.pwpf $room
holds "its movie is the example" cmp -s fifo.mov grey.mov
cat made.pwpf >fifo &
try "check of a named pipe" 0 "" check fifo
cat grey.mov >fifo 2>/dev/null &
try "a movie in a named pipe" 3 "read fault" list fifo
cat fifo >copy.y4m &
try "decode into a named pipe" 0 "" decode grey.mov fifo
wait
holds "its pictures came" cmp -s copy.y4m grey.y4m
cat grey.mov | run list /dev/stdin >out 2>err
ended "a movie on standard input, as a pipe" $? 3 "read fault"
run list /dev/stdin <grey.mov >out 2>err
ended "a movie on standard input, as a file" $? 0 ""
run decode grey.mov /dev/stdout 2>err | cat >both
holds "decode into standard output, as a pipe, gives pictures and text" test "$(wc -c <both)" -eq $((1065 + 63))
run list many.mov 2>err | {
    sleep 1
    cat
} >slow.txt
run list many.mov >quick.txt 2>err
holds "a slow reader gets the same lines" cmp -s slow.txt quick.txt
holds "and they are as many as the samples" test "$(wc -l <quick.txt)" -eq 401
{
    sleep 1
    "$program" list many.mov 2>err
    echo $? >status
} | :
sleep 2
# By SIGPIPE, or where that is ignored by the write that fails.
case $(cat status) in
    141) ended "a reader that went away" 141 141 "" ;;
    *) ended "a reader that went away" "$(cat status)" 4 "write fault" ;;
esac

# Devices.
if [ -c /dev/full ]; then
    run list grey.mov >/dev/full 2>err
    ended "a full standard output" $? 4 "write fault"
    run --help >/dev/full 2>err
    ended "help on a full standard output" $? 4 "write fault"
    try "a full movie" 4 "write fault" encode grey.y4m /dev/full full.pwpf $room
    try "a full proof" 4 "write fault" encode grey.y4m full.mov /dev/full $room
    try "full pictures" 4 "write fault" decode grey.mov /dev/full
    try "a full certificate" 4 "write fault" least two.pwtb /dev/full --cap=10
    run list absent.mov >out 2>/dev/full
    status=$?
    : >err
    ended "a full standard error" $status 3 ""
fi
try "pictures of zeros without an end" 5 "pictures: Magic at 0" encode /dev/zero zero.mov zero.pwpf $room
try "a table of zeros without an end" 10 "proof: TableMagic at 0" plan /dev/zero
try "a proof of zeros without an end" 10 "proof: ProofMagic at 0" check /dev/zero
try "a WAV of zeros without an end" 13 "sound: Magic at 0" addsound grey.mov /dev/zero zero.mov
try "a movie that is a device" 3 "read fault" list /dev/zero
try "pictures from /dev/null" 5 "pictures: Truncated at 0" encode /dev/null null.mov null.pwpf $room
try "a movie from /dev/null" 3 "read fault" list /dev/null
try "both outputs into /dev/null" 0 "" encode grey.y4m /dev/null /dev/null $room
if [ -e /proc/self/status ]; then
    try "a file of no known length" 3 "read fault" list /proc/self/status
fi

# Closed ones. A file that is opened then gets the number of the closed one.
run list grey.mov 2>err >&-
ended "list with standard output closed" $? 4 "write fault"
run decode grey.mov closed.y4m 2>err >&-
ended "decode with standard output closed" $? 4 "write fault"
holds "its pictures are a prefix" is_prefix closed.y4m grey.y4m
run encode - closed.mov closed.pwpf $room <grey.y4m 2>err >&-
ended "encode of standard input with standard output closed" $? 4 "write fault"
holds "no text is in its movie" is_prefix closed.mov grey.mov
run encode - stdin.mov stdin.pwpf $room >out 2>err <&-
ended "encode of standard input that is closed" $? 3 "read fault"
: >err
run list absent.mov >out 2>&-
ended "a refusal with standard error closed" $? 3 ""
head -c 1000 grey.y4m | run encode - quiet.mov quiet.pwpf $room >out 2>&-
ended "cut pictures with standard error closed" $? 5 ""
holds "no line is in the movie" is_prefix quiet.mov grey.mov

# The same file twice.
cp grey.y4m in.y4m
cp grey.mov in.mov
cp made.pwpf in.pwpf
cp two.pwtb in.pwtb
cp tone.wav in.wav
ln in.y4m hard.y4m
ln in.mov hard.mov
ln -s in.y4m soft.y4m
ln -s in.mov soft.mov
try "the movie is the pictures" 4 "write fault" encode in.y4m in.y4m same.pwpf $room
try "the movie is a hard link to the pictures" 4 "write fault" encode in.y4m hard.y4m same.pwpf $room
try "the movie is a symbolic link to the pictures" 4 "write fault" encode in.y4m soft.y4m same.pwpf $room
try "the pictures are a symbolic link to the proof" 4 "write fault" encode soft.y4m same.mov in.y4m $room
try "the movie by another path" 4 "write fault" encode in.y4m ../"$(basename "$work")"/in.y4m same.pwpf $room
try "the movie and the proof are one file" 4 "write fault" encode grey.y4m one.file one.file $room
ln -s later.mov later.pwpf
try "the proof is a symbolic link to the movie, not yet there" 4 "write fault" encode grey.y4m later.mov later.pwpf $room
run encode - in.y4m same.pwpf $room <in.y4m >out 2>err
ended "the movie is standard input" $? 4 "write fault"
holds "the pictures are as they were" cmp -s in.y4m grey.y4m
try "decode onto its movie" 4 "write fault" decode in.mov in.mov
try "decode onto a hard link to its movie" 4 "write fault" decode in.mov hard.mov
try "rescue onto a symbolic link to its file" 4 "write fault" rescue in.mov soft.mov
try "addsound onto its movie" 4 "write fault" addsound in.mov tone.wav in.mov
holds "the movie is as it was" cmp -s in.mov grey.mov
try "addsound onto its WAV" 4 "write fault" addsound grey.mov in.wav in.wav
holds "the WAV is as it was" cmp -s in.wav tone.wav
try "reproof onto its proof" 4 "write fault" reproof in.pwpf in.pwpf
holds "the proof is as it was" cmp -s in.pwpf made.pwpf
try "least onto its table" 4 "write fault" least in.pwtb in.pwtb --cap=10
holds "the table is as it was" cmp -s in.pwtb two.pwtb
run decode grey.mov text.y4m >text.y4m 2>err
ended "the pictures are standard output" $? 4 "write fault"
run decode grey.mov /dev/stdout >text.y4m 2>err
ended "decode into standard output, as a file" $? 4 "write fault"
try "two inputs that are one file" 13 "sound: Magic at 0" addsound grey.mov grey.mov sound.mov

# Links and folders.
ln -s target.y4m dangling
try "an output that is a symbolic link to nothing" 0 "" decode grey.mov dangling
holds "makes the file that it names" cmp -s target.y4m grey.y4m
ln -s loop loop
try "an input that is a link to itself" 3 "read fault" list loop
try "an output that is a link to itself" 4 "write fault" decode grey.mov loop
mkdir folder
try "a folder as a movie" 3 "read fault" list folder
try "a folder as pictures" 3 "read fault" encode folder folder.mov folder.pwpf $room
try "a folder as a proof" 3 "read fault" check folder
try "a folder as an output" 4 "write fault" decode grey.mov folder
try "a file as a folder of an input" 3 "read fault" list grey.mov/x
try "an output in a folder that isn't there" 4 "write fault" decode grey.mov absent/x.y4m

# Names.
try "a name that isn't UTF-8" 1 "usage: a word isn't UTF-8" list "$(printf 'x\377.mov')"
try "an empty name" 3 "read fault" list ""
cp grey.mov "a name
of two lines.mov"
try "a name of two lines" 0 "" list "a name
of two lines.mov"
cp grey.mov ./--list.mov
try "a name with dashes, after ./" 0 "" list ./--list.mov
long=$(printf '%0300d' 0)
try "an input whose name is too long" 3 "read fault" list "$long"
try "an output whose name is too long" 4 "write fault" decode grey.mov "$long"

# A lone dash is standard input where pictures or a WAV are read, and a file of that name everywhere else.
mkdir dash
cd dash || exit 100
for words in "list -" "decode - o" "rescue - o" "sound - o" "addsound - w o" "check -" "reproof - o" "plan -" "curve -" "checkleast -" \
    "least - o --cap=1"; do
    run $words <../grey.mov >../out 2>../err
    status=$?
    cd .. && ended "$words, without a file of that name" $status 3 "read fault"
    cd dash || exit 100
done
cp ../made.pwpf c
run check c - ../grey.mov <../grey.y4m >../out 2>../err
status=$?
cd .. && ended "check with its pictures on standard input" $status 0 ""
cd dash || exit 100
run addsound ../grey.mov - o <../tone.wav >../out 2>../err
status=$?
cd .. && ended "addsound with its WAV on standard input" $status 0 ""
cd dash || exit 100
run encode - - p $room <../grey.y4m >../out 2>../err
status=$?
cd .. && ended "encode of standard input into a file that is named by a dash" $status 0 ""
holds "the file has the movie" cmp -s dash/- grey.mov
cd dash || exit 100
run decode ../grey.mov - >../out 2>../err
status=$?
cd .. && ended "decode into a file that is named by a dash" $status 0 ""
holds "the file has the pictures" cmp -s dash/- grey.y4m
holds "standard output has the text alone" test "$(wc -l <out)" -eq 5
cd dash || exit 100
cp ../grey.mov ./-
run list - >../out 2>../err
status=$?
cd .. && ended "list of a file that is named by a dash" $status 0 ""

# A file that may not grow.
(
    trap '' XFSZ
    ulimit -f 1
    run decode grey.mov small.y4m >out 2>err
)
ended "an output that may not grow" $? 4 "write fault"
holds "has a prefix" is_prefix small.y4m grey.y4m

# Permissions, which root doesn't feel.
as=
if [ "$(id -u)" -eq 0 ]; then as="setpriv --reuid=65534 --regid=65534 --clear-groups"; fi
if [ -z "$as" ] || command -v setpriv >/dev/null; then
    chmod 755 .
    cp "$program" program
    chmod 755 program
    mkdir open locked
    cp grey.mov locked/fixed.mov
    cp grey.mov open/secret.mov
    chmod 000 open/secret.mov
    chmod 777 open
    chmod 644 grey.mov locked/fixed.mov
    chmod 555 locked
    $as ./program list open/secret.mov >out 2>err
    ended "a movie without permission" $? 3 "read fault"
    $as ./program decode grey.mov locked/new.y4m >out 2>err
    ended "an output in a folder without permission" $? 4 "write fault"
    chmod 444 locked/fixed.mov
    $as ./program decode grey.mov locked/fixed.mov >out 2>err
    ended "an output without permission" $? 4 "write fault"
    holds "the file is as it was" cmp -s locked/fixed.mov grey.mov
    $as ./program decode grey.mov open/new.y4m >out 2>err
    ended "an output with permission" $? 0 ""
    chmod 000 locked
    $as ./program list locked/fixed.mov >out 2>err
    ended "a folder without permission" $? 3 "read fault"
    chmod 755 locked
else
    echo "ports: permissions are not tried as root without setpriv"
fi

# Signals.
mkfifo signals
"$program" encode - stopped.mov stopped.pwpf $room <signals >out 2>err &
pid=$!
exec 3>signals
head -c 500 grey.y4m >&3
sleep 1
kill -STOP $pid
sleep 1
kill -CONT $pid
tail -c +501 grey.y4m >&3
exec 3>&-
wait $pid
ended "a run that was stopped and went on" $? 0 ""
holds "its movie is the example" cmp -s stopped.mov grey.mov
for signal in INT TERM KILL; do
    # A command in the background ignores SIGINT, unless it is given its first meaning again.
    if [ $signal = INT ]; then
        command -v env >/dev/null && env --default-signal=INT true 2>/dev/null || continue
        env --default-signal=INT "$program" encode - $signal.mov $signal.pwpf $room <signals >out 2>err &
    else
        "$program" encode - $signal.mov $signal.pwpf $room <signals >out 2>err &
    fi
    pid=$!
    exec 3>signals
    cat many.y4m >&3
    sleep 1
    kill -$signal $pid
    wait $pid 2>/dev/null
    status=$?
    exec 3>&-
    case $signal in INT) wanted=130 ;; TERM) wanted=143 ;; KILL) wanted=137 ;; esac
    ended "a run that ends by $signal" $status $wanted ""
    holds "its movie is a prefix" is_prefix $signal.mov many.mov
    holds "its proof is a prefix" is_prefix $signal.pwpf many.pwpf
    try "rescue of that movie" 0 "" rescue $signal.mov rescued.mov
    try "decode of what was rescued" 0 "" decode rescued.mov rescued.y4m
    holds "shows the first pictures" is_prefix rescued.y4m many.y4m
done

if [ $bad -ne 0 ]; then
    echo "ports: $bad of $cases cases are not as they should be" >&2
    exit 1
fi
echo "ports: all $cases cases are as they should be"
