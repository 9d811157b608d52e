#!/usr/bin/env bash
# Tries the built program as a user would, in a folder of its own: images are made, a block is written by
# one run and read by the next; files that can't be used; a group and a volume that are made by one run and
# found by the next; and loops in which the program is killed while it varies the group on, which has to come
# on again, while it makes and removes a volume, which has to be there whole or not at all, and while it
# writes, after which each block whose write was answered `ok` has to be there.
# Not part of the gate. First build the program: (cd crates/lvm && rt run -- sim 1 8 < /dev/null)
# usage: scripts/session.sh [ROUNDS]        LVM names another program
set -u
lvm=$(realpath "${LVM:-$(dirname "$0")/../crates/lvm/out/lvm}")
rounds=${1:-20}
folder=$(mktemp -d)
trap 'rm -rf "$folder"' EXIT
cd "$folder" || exit 1

fail() {
    echo "FAILED: $*" >&2
    exit 1
}

# run STATUS WANTED INPUT WORD..: the program's status and what it prints
run() {
    local status=$1 wanted=$2 input=$3
    shift 3
    local got
    got=$(printf "$input" | "$lvm" "$@" 2> said)
    local ended=$?
    [ "$ended" = "$status" ] || fail "lvm $*: status $ended, not $status"
    [ "$got" = "$(printf "$wanted")" ] || fail "lvm $*: printed '$got'"
}

# run_and_kill: the program does lines.txt, and is killed meanwhile; its replies so far are in replies
run_and_kill() {
    # Where it is killed before it has begun, no reply of the run before is left.
    : > replies
    "$lvm" script < lines.txt > replies &
    local program=$!
    sleep "0.0$((RANDOM % 9 + 1))"
    kill -9 $program 2> /dev/null
    wait $program 2> /dev/null
}

usage='usage: lvm script | lvm sim DISKS MIB | lvm weave DISKS MIB CLIENTS REQUESTS SEED | lvm load [--own] [--sync] GROUP VOLUME THREADS REQUESTS SEED | lvm gen SEED COUNT | lvm image N MIB'
write='wr hdisk0 4096 1 0000000000000001\n'
read='rd hdisk0 4096 1\n'

# Words outside the language: one line on standard error, none on standard output.
for words in '' 'help' 'sim 0 8' 'sim +1 8' 'image 128 1' 'image 0 -1' 'script script' '--help script' '-h'; do
    # shellcheck disable=SC2086
    run 2 '' '' $words
    [ "$(cat said)" = "$usage" ] || fail "lvm $words: said '$(cat said)'"
done
run 2 '' '' "$(printf 'scr\303')"
[ "$(cat said)" = "$usage" ] || fail "words that are no text: said '$(cat said)'"

# said WANTED: what the last run said on standard error
said() {
    [ "$(cat said)" = "$1" ] || fail "said '$(cat said)', not '$1'"
}

# Help and the version, on standard output.
[ "$("$lvm" --help 2> said | head -n 1)" = "$usage" ] || fail 'help'
said ''
run 0 'lvm 0.1.0\n' '' --version

# No file yet.
run 1 'refused 18 OutOfRange 0\n' "$read" script

# A first session.
run 0 '' '' image 0 8
[ "$(stat -c %s hdisk0.img)" = 8388608 ] || fail 'the size of the image'
run 0 'ok\n' "$write" script
run 0 '4096 0000000000000001\n' "$read" script
[ "$(tail -c +2097153 hdisk0.img | head -c 8 | od -An -tx1 | tr -d ' ')" = 0000000000000001 ] || fail 'the bytes'

# An image isn't made again.
run 4 '' '' image 0 8
said 'lvm: there is an image of this disk already'
run 0 '4096 0000000000000001\n' "$read" script

# Part of a sector at the end is left alone.
printf 'tail' >> hdisk0.img
run 1 '16383 0000000000000000\nrefused 18 OutOfRange 16384\n' 'rd hdisk0 16383 1\nrd hdisk0 16384 1\n' script
[ "$(tail -c 4 hdisk0.img)" = tail ] || fail 'the tail'

# A file that may only be read: this shows only where the user isn't root.
if [ "$(id -u)" != 0 ]; then
    chmod a-w hdisk0.img
    run 1 'refused 19 Lost\n4096 0000000000000001\n' "$write$read" script
    chmod u+w hdisk0.img
fi

# A file that becomes shorter, and one that goes away, while the program runs.
mkfifo lines
# answers N: waits until so many lines are answered, half a minute at most
answers() {
    for _ in $(seq 1 3000); do
        [ "$(wc -l < replies)" -ge "$1" ] && return
        sleep 0.01
    done
    fail "no answer: $(cat replies)"
}
# become CHANGE REPLIES: the file changes so between the first read and the lines behind it, which are answered so
become() {
    : > replies
    "$lvm" script < lines > replies &
    exec 3> lines
    printf "$read" >&3
    answers 1
    $1
    printf "$write$read" >&3
    exec 3>&-
    wait $!
    [ "$(cat replies)" = "$(printf "4096 0000000000000001\n$2")" ] || fail "$1: $(cat replies)"
    rm -f hdisk0.img
    run 0 '' '' image 0 8
    run 0 'ok\n' "$write" script
}
# Two programs: while one has the images, another has none of them.
: > replies
"$lvm" script < lines > replies &
exec 3> lines
printf "$read" >&3
answers 1
run 1 'refused 18 OutOfRange 0\n' "$read" script
said 'lvm: this folder is in use by another program'
exec 3>&-
wait $!
run 0 '4096 0000000000000001\n' "$read" script

# A standard stream that is closed fails, and no image is taken for it.
"$lvm" script >&- 2> said <<< 'lsvg x'
[ $? = 4 ] || fail 'standard output is closed'
said "lvm: standard output can't be written"
"$lvm" script <&- > replies 2> said
[ $? = 3 ] || fail 'standard input is closed'
said "lvm: standard input can't be read"

become 'truncate -s 2097152 hdisk0.img' 'refused 19 Lost\nrefused 20 ReadFailed\n'
become 'rm hdisk0.img' 'refused 9 DiskFailed hdisk0\nrefused 9 DiskFailed hdisk0\n'

# A group over image files: made by one run, found by the next, varied off, and varied on with a member away.
run 0 '' '' image 1 8
run 0 '' '' image 2 8
run 0 'ok\nok\n' 'mkvg -y datavg -s 1 hdisk1 hdisk2\nvaryoffvg datavg\n' script
run 1 'refused 26 InGroup hdisk1\nok\n4096 0000000000000001\n' "rd hdisk1 4096 1\n$write$read" script
run 0 'ok\nhdisk1 datavg active pps 6 free 6 stale 0\n' 'varyonvg datavg\nlspv hdisk1\n' script
run 1 'refused 4 GroupExists\n' 'mkvg -y other hdisk0\n' script
run 1 'refused 27 NoPlan\n' 'fail hdisk0\n' script
mv hdisk2.img away
: > hdisk2.img
run 0 'ok\nhdisk2 datavg missing pps 6 free 6 stale 0\n' 'varyonvg datavg\nlspv hdisk2\n' script
mv away hdisk2.img
mv hdisk1.img away
run 1 'refused 7 NoQuorum 1 3\n' 'varyonvg datavg\n' script
mv away hdisk1.img
run 0 'ok\n' 'varyonvg datavg\n' script

# The program is killed while a group is varied on, again and again: it is found all the same.
for round in $(seq 1 "$rounds"); do
    for k in $(seq 1 50); do
        printf 'varyonvg datavg\nvaryoffvg datavg\n'
    done > lines.txt
    run_and_kill
    run 0 'ok\n' 'varyonvg datavg\n' script
done

# A volume is made by one run, and found and removed by the next.
run 0 'ok\nok\n' 'varyonvg datavg\nmklv -y lv00 -w n datavg 7\n' script
run 0 'ok\nlv00 LPs 7 PPs 7 PVs 2 stale 0\nok\n' 'varyonvg datavg\nlsvg -l datavg\nrmlv lv00\n' script

# The program is killed while it makes and removes a volume, which is there whole or not at all.
for round in $(seq 1 "$rounds"); do
    {
        printf 'varyonvg datavg\n'
        for k in $(seq 1 50); do
            printf 'mklv -y lv00 -w n datavg 2\nrmlv lv00\n'
        done
    } > lines.txt
    run_and_kill
    found=$(printf 'varyonvg datavg\nlsvg -l datavg\n' | "$lvm" script)
    case "$found" in
        ok) ;;
        "$(printf 'ok\nlv00 LPs 2 PPs 2 PVs 1 stale 0')") run 0 'ok\nok\n' 'varyonvg datavg\nrmlv lv00\n' script ;;
        *) fail "after a kill: '$found'" ;;
    esac
done
rm -f hdisk1.img hdisk2.img hdisk0.img

# Of two copies one is on a disk that was replaced between the runs, and one on a disk that is away: neither goes, and
# what was written is there once that disk is back.
for disk in 0 1 2 3 4; do
    run 0 '' '' image $disk 8
done
run 0 'ok\nok\nok\n' 'mkvg -y datavg -s 1 hdisk3 hdisk0 hdisk1 hdisk2 hdisk4\nmklv -y lv00 -c 2 -w n datavg 1\nwr lv00 0 1 0000000000000001\n' script
mv hdisk0.img away
rm hdisk3.img
run 0 '' '' image 3 8
run 1 'ok\nrefused 21 NoFresh 1\nrefused 17 LastFresh 1\n' 'varyonvg datavg\nrd lv00 0 1\nrmlvcopy lv00 1\n' script
mv away hdisk0.img
run 0 'ok\n0001 0001 hdisk3 stale 0001 hdisk0\n0 0000000000000001\n' 'varyonvg datavg\nlslv -m lv00\nrd lv00 0 1\n' script
rm -f hdisk0.img hdisk1.img hdisk2.img hdisk3.img hdisk4.img
run 0 '' '' image 0 8

# The program is killed between replies. Block 4096 + k gets the word of the round and k; each block whose
# write was answered has to be there.
rm hdisk0.img
run 0 '' '' image 0 8
answered=0
for round in $(seq 1 "$rounds"); do
    for k in $(seq 0 1999); do
        printf 'wr hdisk0 %d 1 %016x\n' $((4096 + k)) $((round * 65536 + k))
    done > lines.txt
    run_and_kill
    # A reply that was written in part isn't one.
    ok=$(grep -c '^ok$' replies)
    [ "$ok" = 0 ] || [ "$(tail -c 1 replies | od -An -tx1 | tr -d ' ')" = 0a ] || ok=$((ok - 1))
    answered=$((answered + ok))
    for k in $(seq 0 $((ok - 1))); do
        printf '%d %016x\n' $((4096 + k)) $((round * 65536 + k))
    done > wanted
    for k in $(seq 0 $((ok - 1))); do
        printf 'rd hdisk0 %d 1\n' $((4096 + k))
    done | "$lvm" script > found
    cmp -s wanted found || fail "round $round: of $ok writes that were answered not all are there"
done
echo "sessions went as they should; $answered writes were answered before $rounds kills, and each was there"
