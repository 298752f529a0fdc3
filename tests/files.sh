#!/bin/bash
# Runs the program over files that are missing, that are directories, or that it reads and writes, into a closed pipe, and
# on a terminal, kills it while it writes, and compares what it prints, how it ends, and what is then in the file of its
# output and beside it:
#   tests/files.sh
# No contract says what a file contains, so this is seen here alone. It needs bin/kcount and a C compiler.
set -euo pipefail
here=$(cd "$(dirname "$0")" && pwd)
kcount=$here/../bin/kcount
on_terminal=$here/on_terminal.py
[ -x "$kcount" ] || { echo "no bin/kcount: run make build first"; exit 1; }
work=$(mktemp -d)
trap 'rm -rf "$work"' EXIT
mkdir "$work/here" "$work/here/a-directory"
cd "$work/here"

# The files that each command line finds: two good sources and a bad one, a table of each good one, three that can't be
# added to the first of these, and an output with an old text, or this one.
before='old\n'
set_up() {
    printf '>r1\nACGTA\n' > one.fa
    printf '@r2\nCCC\n+\nIII\n' > two.fq
    printf '>r1\nA@C\n' > bad.fa
    printf 'KCT 2 3 s a 33 1\nACG 1\nCGT 1\nGTA 1\nEND 3 3\n' > one.kct
    printf 'KCT 2 3 s a 33 1\nCCC 1\nEND 1 1\n' > two.kct
    printf 'KCT 2 3 s a 33 1\nACG\nEND 1 1\n' > row.kct
    printf 'KCT 2 3 s a 35 1\nACG 1\nEND 1 1\n' > floor.kct
    printf 'KCT 2 3 s a 33 1\nACG 4611686018427387904\nEND 1 4611686018427387904\n' > most.kct
    printf "$before" > out
}

ran=0
# Runs `kcount` with these arguments, and compares its status, its output, its errors and the file `out`, each of which
# is written without the line feed at its end. No file may come or go.
wants() {
    local status=$1 output=$2 errors=$3 left=$4 got=0 files
    shift 4
    set_up
    files=$(ls -A)
    "$kcount" "$@" > "$work/output" 2> "$work/errors" < one.fa || got=$?
    same "its status" "$status" "$got" "$@"
    same "its output" "$output" "$(cat "$work/output")" "$@"
    same "its errors" "$errors" "$(cat "$work/errors")" "$@"
    same "the file out" "$left" "$(cat out)" "$@"
    same "the files" "$files" "$(ls -A)" "$@"
    ran=$((ran + 1))
}
same() {
    local what=$1 wanted=$2 got=$3
    shift 3
    [ "$wanted" = "$got" ] && return
    printf 'files: %s of kcount %s\nwanted: %s\ngot: %s\n' "$what" "$*" "$wanted" "$got"
    exit 1
}

one=$'ACG 1\nCGT 1\nGTA 1'
table=$'KCT 2 3 s a 33 1\nACG 1\nCGT 1\nGTA 1\nEND 3 3'
both=$'KCT 2 3 s a 33 2\nACG 1\nCCC 1\nCGT 1\nGTA 1\nEND 4 4'
count=(count -m 3 --print dump --column)
select=(select --min-count 1)

# files are read in order, and standard input only where none is named
wants 0 "$one" '' old "${count[@]}"
wants 0 "$one" '' old "${count[@]}" one.fa
wants 0 $'ACG 1\nCCC 1\nCGT 1\nGTA 1' '' old "${count[@]}" one.fa two.fq
wants 0 'CCC 2' '' old "${count[@]}" two.fq two.fq
wants 1 '' 'kcount: 2: bad base, source 2, line 2' old "${count[@]}" one.fa bad.fa two.fq
wants 0 "$one" '' old dump -c one.kct
wants 0 'CGT 1' '' old query one.kct cgt
wants 0 $'CGT 1\nGTA 1' '' old query --file <(echo GTA) one.kct cgt
wants 0 "$both" '' old merge one.kct two.kct
# (a pipe can be read only once, so tables are kept in memory then)
wants 0 "$both" '' old merge <(printf '%s\n' "$table") two.kct
wants 0 "$both" '' old merge two.kct <(printf '%s\n' "$table")
wants 1 '' 'kcount: 42: bad row, line 2' old merge row.kct <(printf '%s\n' "$table")
wants 0 $'KCT 2 3 s a 33 2\nACG 2\nCGT 2\nGTA 2\nEND 3 6' '' old merge one.kct one.kct
wants 0 $'>r1\nACGTA' '' old "${select[@]}" one.kct
wants 0 $'@r2\nCCC\n+\nIII' '' old "${select[@]}" two.kct one.fa two.fq
wants 0 $'>r1\nACGTA\n>r1\nACGTA' '' old "${select[@]}" one.kct one.fa two.fq one.fa
# a list is no source, and standard input is read beside it where no source is named
wants 0 "$one" '' old "${count[@]}" --only one.fa
wants 0 '' '' old "${count[@]}" --only two.fq
wants 0 "$one" '' old "${count[@]}" --only one.fa one.fa
wants 0 'CCC 1' '' old "${count[@]}" --only two.fq one.fa two.fq
# its fault is told before those of the sources
wants 1 '' 'kcount: 2: bad base, source 0, line 2' old "${count[@]}" --only bad.fa bad.fa
wants 1 '' 'kcount: 2: bad base, source 1, line 2' old "${count[@]}" --only one.fa bad.fa
# FIRST is read before SECOND
wants 1 '' 'kcount: 41: bad header' old merge one.fa a-directory
wants 1 '' 'kcount: 45: table read failed' old merge a-directory one.fa
# the table of a selection is read before its reads, and those before a fault are written
wants 1 '' 'kcount: 41: bad header' old "${select[@]}" one.fa a-directory
wants 1 $'>r1\nACGTA' 'kcount: 2: bad base, source 2, line 2' old "${select[@]}" one.kct one.fa bad.fa a-directory

# the file of the output has what would have been printed
wants 0 '' '' "$one" "${count[@]}" -o out one.fa
wants 0 '' '' "$table" count -m 3 -o out one.fa
wants 0 '' '' "$one" dump -c -o out one.kct
wants 0 '' '' 'ACG 1' query -o out one.kct ACG
wants 0 '' '' $'ACG 1\nGTA 1' query -o out --file <(echo GTA) one.kct ACG
wants 0 '' '' "$both" merge -o out two.kct one.kct
wants 0 '' '' $'KCT 2 3 s o 33 2\nCCC 1\nEND 1 1' count -m 3 --only two.fq -o out one.fa two.fq
wants 0 '' '' $'>r1\nACGTA' "${select[@]}" -o out one.kct one.fa two.fq
# after a fault of the work it is as it was
wants 1 '' 'kcount: 2: bad base, source 1, line 2' old "${count[@]}" -o out bad.fa
wants 1 '' 'kcount: 2: bad base, source 0, line 2' old "${count[@]}" --only bad.fa -o out one.fa
wants 1 '' 'kcount: 41: bad header' old dump -o out one.fa
wants 1 '' 'kcount: 41: bad header' old merge -o out one.kct one.fa
wants 1 '' 'kcount: 42: bad row, line 2' old merge -o out row.kct one.kct
wants 1 '' 'kcount: 61: tables do not match' old merge -o out one.kct floor.kct
wants 1 '' 'kcount: 62: sums too large' old merge -o out one.kct most.kct
wants 1 '' 'kcount: 42: bad row, line 2' old "${select[@]}" -o out row.kct one.fa
wants 1 '' 'kcount: 2: bad base, source 2, line 2' old "${select[@]}" -o out one.kct one.fa bad.fa
# a file that is read and written is read whole, and then has the text
before='>r1\nACGTA\n'
wants 0 '' '' "$table" count -m 3 -o out out
wants 0 '' '' $'KCT 2 3 s o 33 1\nACG 1\nCGT 1\nGTA 1\nEND 3 3' count -m 3 --only out -o out one.fa
wants 0 '' '' $'>r1\nACGTA' "${select[@]}" -o out one.kct out
wants 1 '' 'kcount: 2: bad base, source 2, line 2' $'>r1\nACGTA' "${count[@]}" -o out out bad.fa
before='KCT 2 3 s a 33 1\nACG 1\nCGT 1\nGTA 1\nEND 3 3\n'
wants 0 '' '' "$one" dump -c -o out out
wants 0 '' '' "$both" merge -o out out two.kct
wants 0 '' '' "$both" merge -o out two.kct out
wants 0 '' '' $'>r1\nACGTA' "${select[@]}" -o out out one.fa
before='old\n'

# two outputs get both texts or neither
pairs=("${select[@]}" --pairs -o out --output2 out2)
wants_both() {
    local second=$1 got
    shift
    printf 'old 2\n' > out2
    wants "$@"
    got=$(cat out2)
    same "the file out2" "$second" "$got" "$@"
    rm out2
}
wants_both $'>r1\nACGTA' 0 '' '' $'>r1\nACGTA' "${pairs[@]}" one.kct one.fa one.fa
wants_both 'old 2' 1 '' 'kcount: 41: bad header' old "${pairs[@]}" one.fa one.fa one.fa
wants_both 'old 2' 1 '' 'kcount: 2: bad base, source 1, line 2' old "${pairs[@]}" one.kct bad.fa one.fa
wants_both 'old 2' 1 '' 'kcount: 2: bad base, source 2, line 2' old "${pairs[@]}" one.kct one.fa bad.fa
wants_both 'old 2' 1 '' 'kcount: 81: reads are no pair, record 1' old "${pairs[@]}" one.kct one.fa two.fq
wants_both 'old 2' 1 '' 'kcount: 54: cannot open missing' old "${pairs[@]}" missing one.fa one.fa
wants_both 'old 2' 1 '' 'kcount: 54: cannot open missing' old "${pairs[@]}" one.kct one.fa missing
# where there is no file for the second, the first is as it was, and where there is none for the first, so is the second
wants_both 'old 2' 1 '' 'kcount: 54: cannot open no-such/out' old "${select[@]}" --pairs -o out --output2 no-such/out one.kct bad.fa one.fa
wants_both 'old 2' 1 '' 'kcount: 54: cannot open no-such/out' old "${select[@]}" --pairs -o no-such/out --output2 out2 one.kct bad.fa one.fa
if [ -c /dev/full ]; then
    wants_both 'old 2' 1 '' 'kcount: 53: write failed' old "${select[@]}" --pairs -o out --output2 /dev/full one.kct one.fa one.fa
    wants_both 'old 2' 1 '' 'kcount: 53: write failed' old "${select[@]}" --pairs -o /dev/full --output2 out2 one.kct one.fa one.fa
fi
wants_both 'old 2' 0 '' '' $'>r1\nACGTA' "${select[@]}" --pairs -o out --output2 /dev/null one.kct one.fa one.fa

# a file that can't be opened is told, the first of several, before the file of the output is opened
wants 1 '' 'kcount: 54: cannot open missing' old "${count[@]}" missing
wants 1 '' 'kcount: 54: cannot open missing' old "${count[@]}" -o out one.fa missing lost bad.fa
wants 1 '' 'kcount: 54: cannot open missing' old stats -o out missing
wants 1 '' 'kcount: 54: cannot open missing' old query -o out missing ACG
wants 1 '' 'kcount: 54: cannot open missing' old query -o out --file missing lost ACG
wants 1 '' 'kcount: 54: cannot open missing' old query -o out --file one.kct missing ACG
wants 1 '' 'kcount: 45: table read failed' old query -o out --file a-directory one.fa ACG
wants 1 '' 'kcount: 52: bad word 2' old query -o out --file <(echo CG) one.kct ACG
wants 1 '' 'kcount: 54: cannot open ' old "${count[@]}" ''
wants 1 '' 'kcount: 54: cannot open missing' old merge -o out missing lost
wants 1 '' 'kcount: 54: cannot open missing' old merge -o out one.kct missing
wants 1 '' 'kcount: 54: cannot open missing' old merge -o out one.fa missing
wants 1 '' 'kcount: 54: cannot open missing' old "${select[@]}" -o out missing lost
wants 1 '' 'kcount: 54: cannot open missing' old "${select[@]}" -o out one.kct bad.fa missing
# the list is opened before the sources
wants 1 '' 'kcount: 54: cannot open missing' old "${count[@]}" --only missing -o out one.fa
wants 1 '' 'kcount: 54: cannot open missing' old "${count[@]}" --only missing -o out lost
wants 1 '' 'kcount: 54: cannot open lost' old "${count[@]}" --only bad.fa -o out lost
wants 1 '' 'kcount: 54: cannot open missing' old "${count[@]}" --only missing
wants 1 '' 'kcount: 54: cannot open ' old "${count[@]}" --only= -o out one.fa
# so is a file that can't be created, before anything is read
wants 1 '' 'kcount: 54: cannot open no-such/out' old "${count[@]}" -o no-such/out bad.fa
wants 1 '' 'kcount: 54: cannot open a-directory' old "${count[@]}" -o a-directory bad.fa
wants 1 '' 'kcount: 54: cannot open missing' old "${count[@]}" -o no-such/out missing
wants 1 '' 'kcount: 54: cannot open no-such/out' old "${count[@]}" --only bad.fa -o no-such/out one.fa
wants 1 '' 'kcount: 54: cannot open no-such/out' old merge -o no-such/out one.fa two.kct
wants 1 '' 'kcount: 54: cannot open no-such/out' old "${select[@]}" -o no-such/out one.fa bad.fa
wants 1 '' 'kcount: 54: cannot open missing' old merge -o no-such/out one.kct missing
# a directory opens, and then can't be read
wants 1 '' 'kcount: 7: read failed, source 1' old "${count[@]}" a-directory
wants 1 '' 'kcount: 7: read failed, source 2' old "${count[@]}" -o out one.fa a-directory
wants 1 '' 'kcount: 7: read failed, source 0' old "${count[@]}" --only a-directory bad.fa
wants 1 '' 'kcount: 7: read failed, source 0' old "${count[@]}" --only a-directory -o out one.fa
wants 1 '' 'kcount: 45: table read failed' old stats a-directory
wants 1 '' 'kcount: 45: table read failed' old merge one.kct a-directory
wants 1 '' 'kcount: 45: table read failed' old "${select[@]}" a-directory bad.fa
wants 1 $'>r1\nACGTA' 'kcount: 7: read failed, source 2' old "${select[@]}" one.kct one.fa a-directory

# a bad option is told before a file is looked for
wants 2 '' 'kcount: 51: bad option --mer-len' old count -m 32 -o out missing
wants 2 '' 'kcount: 51: bad option --high' old count -m 3 --high 0 --only missing -o out one.fa
wants 2 '' 'kcount: 51: bad option --min-share' old select --min-share 101 -o out missing
# an argument that is not UTF-8 refuses the command line
wants 2 '' 'kcount: an argument is not UTF-8' old "${count[@]}" -o out $'\xff'

# an output that takes nothing
if [ -c /dev/full ]; then
    wants 1 '' 'kcount: 53: write failed' old "${count[@]}" -o /dev/full one.fa
    wants 1 '' 'kcount: 53: write failed' old merge -o /dev/full one.kct two.kct
    wants 1 '' 'kcount: 53: write failed' old "${select[@]}" -o /dev/full one.kct one.fa bad.fa
fi
# An output that takes a beginning of the text: a limit of the size of files, and a full device beside FILE.
wants_whole() {
    local what=$1 got=0
    shift
    "$@" 2> "$work/errors" || got=$?
    same "its status" 1 "$got" "$what"
    same "its errors" 'kcount: 53: write failed' "$(cat "$work/errors")" "$what"
    same "the file out" old "$(cat out)" "$what"
    same "the files" "$files" "$(ls -A)" "$what"
    ran=$((ran + 1))
}
awk 'BEGIN { srand(1); print ">r"; for (i = 0; i < 60000; i++) print substr("ACGT", int(rand() * 4) + 1, 1) }' > many.fa
set_up
files=$(ls -A)
limited() { (trap '' XFSZ; ulimit -f 64; "$kcount" count -m 15 "$@"); }
wants_whole "beyond the size of a file" limited -o out many.fa
mkdir full
if mount -t tmpfs -o size=64k tmpfs full 2> "$work/mount"; then
    printf 'old\n' > full/out
    (cd full; files=$(ls -A); wants_whole "on a full device" "$kcount" count -m 15 -o out ../many.fa)
    umount full
    ran=$((ran + 1))
else
    echo "files: a full device was not tried, since no tmpfs can be mounted here"
fi
rmdir full
# A file that is not there before: empty after a refusal.
got=0
"$kcount" "${count[@]}" -o new bad.fa 2> "$work/errors" || got=$?
same "its status" 1 "$got" "of a new file"
same "the file new" '' "$(cat new)" "of a new file"
"$kcount" "${count[@]}" -o new one.fa
same "the file new" "$one" "$(cat new)" "of a new file"
rm new
same "the files" "$files" "$(ls -A)" "of a new file"
ran=$((ran + 2))
# Its permissions and a link to it are kept, and so is the text that another name has.
set_up
chmod 640 out
ln -s ../here/out link
ln out other
"$kcount" "${count[@]}" -o link one.fa
same "the link" ../here/out "$(readlink link)" "through a link"
same "the file out" "$one" "$(cat out)" "through a link"
same "its permissions" 640 "$(stat -c %a out)" "through a link"
same "the other name" old "$(cat other)" "through a link"
rm link other
same "the files" "$files" "$(ls -A)" "through a link"
chmod 644 out
ran=$((ran + 1))
# Names that are taken are passed over.
set_up
printf 'mine\n' > out.kcount-1
"$kcount" "${count[@]}" -o out one.fa
same "the file out" "$one" "$(cat out)" "beside a taken name"
same "the taken name" mine "$(cat out.kcount-1)" "beside a taken name"
rm out.kcount-1
same "the files" "$files" "$(ls -A)" "beside a taken name"
ran=$((ran + 1))
# A folder that can't be written: the text can't be put in its place, even where FILE itself can be written.
unprivileged=()
[ "$(id -u)" != 0 ] || unprivileged=(setpriv --reuid=65534 --regid=65534 --clear-groups)
chmod 755 "$work"
mkdir "$work/locked"
cp "$kcount" one.fa "$work/locked"
printf 'old\n' > "$work/locked/out"
chmod 666 "$work/locked/out"
chmod 755 "$work/locked/kcount"
chmod 644 "$work/locked/one.fa"
chmod 555 "$work/locked"
got=0
(cd "$work/locked" && "${unprivileged[@]}" ./kcount "${count[@]}" -o out one.fa) 2> "$work/errors" || got=$?
same "its status" 1 "$got" "in a folder that can't be written"
same "its errors" 'kcount: 54: cannot open out' "$(cat "$work/errors")" "in a folder that can't be written"
same "the file out" old "$(cat "$work/locked/out")" "in a folder that can't be written"
chmod 755 "$work/locked"
ran=$((ran + 1))
# A device, a pipe and the output of the process itself are written straight, behind what is there.
set_up
wants 0 "$one" '' old "${count[@]}" -o /dev/stdout one.fa
wants 0 '' '' old "${count[@]}" -o /dev/null one.fa
printf 'old\n' > "$work/log"
"$kcount" "${count[@]}" -o /dev/stdout one.fa >> "$work/log"
same "the log" $'old\n'"$one" "$(cat "$work/log")" "behind a log"
mkfifo pipe
cat pipe > "$work/piped" &
"$kcount" "${count[@]}" -o pipe one.fa
wait $!
same "what came through the pipe" "$one" "$(cat "$work/piped")" "into a pipe"
rm pipe
"$kcount" "${count[@]}" -o >(cat > "$work/piped-2") one.fa
for _ in $(seq 50); do [ "$(cat "$work/piped-2")" != "$one" ] || break; sleep 0.1; done
same "what came through the process" "$one" "$(cat "$work/piped-2")" "into a process"
ran=$((ran + 3))
# In shared memory files are files.
if [ -d /dev/shm ] && shared=$(mktemp -d -p /dev/shm); then
    printf 'a longer old text\n%.0s' 1 2 3 > "$shared/out"
    "$kcount" "${count[@]}" -o "$shared/out" one.fa
    same "the file out" "$one" "$(cat "$shared/out")" "in shared memory"
    rm -r "$shared"
    ran=$((ran + 1))
fi

# Killed at a moment of its writing: FILE has the old text, or the whole new one.
awk 'BEGIN { srand(2); print ">r"; for (i = 0; i < 800000; i++) printf "%s", substr("ACGT", int(rand() * 4) + 1, 1); print "" }' > long.fa
for _ in 1 2 3 4 5 6 7 8; do cat long.fa; done > reads.fa
"$kcount" count -m 21 -o long.kct long.fa
killed() {
    local took at
    "$kcount" "$@" > "$work/whole"
    took=$({ TIMEFORMAT=%R; time "$kcount" "$@" -o out; } 2>&1)
    cmp -s out "$work/whole" || { echo "files: the text of kcount $* is not the same in a file"; exit 1; }
    for _ in $(seq 20); do
        printf 'old\n' > out
        at=$(awk -v took="$took" -v seed="$RANDOM" 'BEGIN { srand(seed); print took * rand() }')
        "$kcount" "$@" -o out &
        sleep "$at"
        kill -9 $! 2> /dev/null || true
        wait $! 2> /dev/null || true
        cmp -s out "$work/whole" || same "the file out" old "$(head -c 100 out)" "$@, killed after $at s"
        rm -f out.kcount-*
    done
    ran=$((ran + 21))
}
RANDOM=1
killed dump -c long.kct
killed merge long.kct long.kct
killed "${select[@]}" long.kct reads.fa
rm long.fa reads.fa long.kct

# A table that changes while it is read twice: what it is the second time is combined, or its fault is reported. The
# output then has no more than a beginning, and a file that is named for it stays.
cc -O2 -shared -fPIC -o "$work/later.so" "$here/open_later.c" -ldl
changed() {
    local status=$1 output=$2 errors=$3 left=$4 later=$5 got=0
    shift 5
    set_up
    printf '%s\n' "$later" > two.kct.later
    LD_PRELOAD="$work/later.so" "$kcount" "$@" > "$work/output" 2> "$work/errors" || got=$?
    rm two.kct.later
    same "its status" "$status" "$got" "$@, a table changed"
    same "its output" "$output" "$(cat "$work/output")" "$@, a table changed"
    same "its errors" "$errors" "$(cat "$work/errors")" "$@, a table changed"
    same "the file out" "$left" "$(cat out)" "$@, a table changed"
    ran=$((ran + 1))
}
changed 0 $'KCT 2 3 s a 33 2\nACG 1\nCGT 1\nGTA 1\nTTT 9\nEND 4 12' '' old \
    $'KCT 2 3 s a 33 1\nTTT 9\nEND 1 9' merge one.kct two.kct
changed 1 '' 'kcount: 42: bad row, line 2' old $'KCT 2 3 s a 33 1\nCCC\nEND 1 1' merge one.kct two.kct
changed 1 '' 'kcount: 43: bad end' old $'KCT 2 3 s a 33 1\nCCC 1' merge -o out one.kct two.kct
changed 1 '' 'kcount: 61: tables do not match' old $'KCT 2 3 c a 33 1\nAAA 1\nEND 1 1' intersect -o out one.kct two.kct
changed 1 '' 'kcount: 41: bad header' old 'CCC 1' subtract one.kct two.kct
changed 0 $'0\t1\t3\n5\t0\t1' '' old $'KCT 2 3 s a 33 1\nTTT 9\nEND 1 9' compare --matrix one.kct two.kct
changed 1 '' 'kcount: 42: bad row, line 2' old $'KCT 2 3 s a 33 1\nCCC\nEND 1 1' compare one.kct two.kct
changed 0 'TTT 9' '' old $'KCT 2 3 s a 33 1\nTTT 9\nEND 1 9' dump -c two.kct
changed 1 '' 'kcount: 43: bad end' old $'KCT 2 3 s a 33 1\nCCC 1' dump -c -o out two.kct

# a pipe whose reader goes after one line, while far more is to be written than a pipe holds
set +o pipefail
{ "$kcount" count -m 15 --print dump --column many.fa 2> "$work/errors" || echo $? > "$work/status"; } | head -n 1 > "$work/output"
set -o pipefail
same "its status" 1 "$(cat "$work/status")" "into a closed pipe"
same "its errors" 'kcount: 53: write failed' "$(cat "$work/errors")" "into a closed pipe"
same "the lines that were read" 1 "$(wc -l < "$work/output")" "into a closed pipe"
ran=$((ran + 1))

# how far a count has come is shown on a terminal alone, here of a source that takes a second
slowly() { printf '>r1\nACG'; sleep 1; printf 'TA\n'; }
slowly | "$kcount" "${count[@]}" > "$work/output" 2> "$work/errors"
same "its output" "$one" "$(cat "$work/output")" "of a slow source"
same "its errors" '' "$(cat "$work/errors")" "of a slow source"
ran=$((ran + 1))
# Runs `kcount` on a slow source with its errors, and its output where that goes to no file, on a terminal. What it
# shows there has to begin with how far it has come, and to be taken away before the wanted text.
shows() {
    local wanted=$1 source=$2 to=$3 shown
    shown=$("$on_terminal" "{ $source; } | '$kcount' ${count[*]} $to")
    shown=${shown//$'\r'/}
    same "what a terminal is shown first" 'read 0 MB, ' "$(grep -o -m 1 'read 0 MB, ' <<< "$shown" | head -n 1)" "$source"
    shown=$(sed -E 's/, [0-9]+\.[0-9] s$//' <<< "${shown##*$'\e[K'}")
    same "what stays on a terminal" "$wanted" "$shown" "$source"
    ran=$((ran + 1))
}
closing='1 read, 3 k-mers, 3 distinct'
shows "$one"$'\n'"$closing" "$(declare -f slowly); slowly" ''
shows "$closing" "$(declare -f slowly); slowly" "> '$work/output'"
same "its output" "$one" "$(cat "$work/output")" "beside a terminal"
# (bytes are told with the reads that they say)
shows $'kcount: 2: bad base, source 1, line 4\n  standard input, line 4: a sequence has a byte that is no letter; are two formats in one input?' "printf '>r1\nACG\n'; sleep 1; printf '>r2\nA@C\n'" ''
# reads may be typed, once the line that asks for them is shown
asking='reading standard input; end it with Ctrl-D'
shown=$("$on_terminal" "'$kcount' ${count[*]} -o '$work/typed'" "$asking" $'>r1\nACGTA\n\004')
same "what a terminal is told first" "$asking" "$(grep -o -m 1 "$asking" <<< "$shown")" "typed"
same "what stays on a terminal" "$closing" "$(grep -o -m 1 "$closing" <<< "$shown")" "typed"
same "its output" "$one" "$(cat "$work/typed")" "typed"
ran=$((ran + 1))
echo "files: $ran command lines printed what they should, and left what they should in the file of the output"
