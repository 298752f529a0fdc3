#!/bin/bash
# Runs the workflow over the examples, cut into many parts, on two cores, and compares its table with that of all files
# counted at once:
#   tests/workflow.sh
# Runs are killed in the middle and go on, a part is refused, a file changes and one is added, and a program that loses
# a table is found out. Settings are misspelled, missing or wrong; files are empty, small or damaged; twenty files on
# four cores show how many steps are at work at a time. It needs bin/kcount, and Debian's snakemake, seqkit and gnuplot;
# without these it is left out.
set -euo pipefail
here=$(cd "$(dirname "$0")" && pwd)
program=$here/../bin/kcount
for tool in snakemake seqkit gnuplot; do
    command -v $tool > /dev/null || {
        echo "workflow: left out, $tool isn't installed:"
        echo "  apt-get install --no-install-recommends snakemake seqkit gnuplot-nox"
        exit 0
    }
done
[ -x "$program" ] || { echo "no bin/kcount: run make build first"; exit 1; }
work=$(mktemp -d)
running=
# ends what still runs of a run in a session of its own, and waits for it
kill_run() {
    kill -KILL -- "-$running" 2> /dev/null || true
    wait "$running" 2> /dev/null || true
    running=
}
trap '[ -z "$running" ] || kill_run; rm -rf "$work"' EXIT
mkdir "$work/reads" "$work/programs"
cd "$work"
cp "$here/../examples/reads.fa" "$here/../examples/shotgun.fq" reads
gzip -c reads/shotgun.fq > reads/again.fq.gz
# the seven reads of a part make 70 parts of these files, and reads.fa, with two reads, is counted as it is
parts=71

fails() {
    echo "workflow: $1"
    [ ! -e "$work/log" ] || tail -n 30 "$work/log"
    find "$work" -path '*/logs/*' -name '*.log' ! -path '*/cut.log' -size +0 -exec tail -n 3 {} +
    exit 1
}

# The program that the workflow calls notes its command, leaves the file of its output empty for a time, and then is
# kcount: so a run that is killed has begun files.
cat > programs/slow <<SLOW
#!/bin/bash
echo "\$1" >> "$work/calls"
options=("\$@")
for place in "\${!options[@]}"; do
    [ "\${options[place]}" != -o ] || : > "\${options[place + 1]}"
done
sleep 0.1
exec "$program" "\$@"
SLOW
# A program whose sum is the first table alone.
cat > programs/forgetful <<FORGETFUL
#!/bin/bash
if [ "\$1" != merge ]; then exec "$program" "\$@"; fi
if [ "\$2" = -o ]; then cp "\$4" "\$3"; else cat "\$2"; fi
FORGETFUL
chmod +x programs/*

# called SETTING.. -- OPTION..: calls the workflow with these settings
called() {
    local settings=()
    while [ $# -gt 0 ] && [ "$1" != -- ]; do settings+=("$1"); shift; done
    snakemake --snakefile "$here/../workflow/Snakefile" --scheduler greedy --cores 2 "${@:2}" \
        --config "${settings[@]}" > log 2>&1
}
# flow RESULTS PROGRAM OPTION..: runs the workflow over the files in reads/, and merges so many tables at once
merged=64
flow() {
    called "reads=reads/*" "results=$1" "kcount=$2" k=15 least_quality=+ reads_per_part=7 "tables_per_merge=$merged" \
        -- "${@:3}"
}
# The table of the files as they are, counted at once.
at_once() {
    gzip -dc reads/again.fq.gz > again.fq
    "$program" count -m 15 -C --min-qual-char + -o at-once.kct again.fq reads/*.fa reads/*.fq
}
is_right() {
    at_once
    cmp -s at-once.kct "$1/table.kct" || fails "$2: the table isn't that of all files counted at once"
}
calls() { grep -c "^$1$" calls || true; }

called "reads=reads/*" -- --lint || fails "its lint complains"
flow plain "$program" --dry-run || fails "its dry run fails"
[ ! -e plain ] || fails "its dry run made something"

# A run from the files to the picture, and nothing is left to do.
flow plain "$program" || fails "a run failed"
is_right plain "a run"
[ "$(find plain/logs -name 'part_*.log' | wc -l)" = $((parts - 1)) ] \
    || fails "the files were not cut into $((parts - 1)) parts"
[ -e plain/logs/reads_reads.fa/whole.log ] || fails "a file with fewer reads than a part wasn't counted as it is"
[ "$(cat plain/parts/reads_reads.fa.tsv)" = "$(printf 'whole\t2\t23\t14')" ] \
    || fails "the list of a file that isn't cut is another: $(cat plain/parts/reads_reads.fa.tsv)"
[ -z "$(find plain/parts -mindepth 1 ! -name '*.tsv')" ] || fails "parts stayed"
[ -z "$(find plain -name '*.kct' ! -path plain/table.kct)" ] || fails "a table of a part stayed"
"$program" histo plain/table.kct | cmp -s - plain/histo.txt || fails "the histogram isn't that of the table"
"$program" stats plain/table.kct | cmp -s - plain/stats.txt || fails "the statistics aren't those of the table"
[ "$(head -c 4 plain/spectrum.png | tail -c 3)" = PNG ] || fails "the picture is no PNG"
flow plain "$program" || fails "a second run failed"
grep -q 'Nothing to be done' log || fails "a second run does something"

# killed_at COMMAND NUMBER: begins a run, or goes on with one, and kills it when it has made so many calls of a command
killed_at() {
    local tries before
    before=$(calls "$1")
    setsid bash -c "$(declare -f called flow); here=$here; merged=$merged; flow killed '$work/programs/slow' --rerun-incomplete" &
    running=$!
    for tries in $(seq 1 600); do
        [ "$(calls "$1")" -lt $((before + $2)) ] || break
        sleep 0.1
    done
    kill -0 "$running" 2> /dev/null || fails "a run ended before it was killed"
    kill_run
    [ "$(calls "$1")" -ge $((before + $2)) ] || fails "a run made too few calls of $1 within a minute"
    [ ! -e killed/table.kct ] || fails "a run had its table before it was killed"
    flow killed "$work/programs/slow" --unlock || fails "a killed run can't be unlocked"
}
# 71 parts are 64 tables in the last merge, seven of which are sums of two.
: > calls
flow wide "$work/programs/slow" || fails "a run of wide merges failed"
is_right wide "a run of wide merges"
[ "$(calls count) $(calls merge)" = "$parts 8" ] || fails "$(calls count) counts of $parts parts, and $(calls merge) merges"

# A run that is killed while it counts, and again while it merges pairs, goes on where it was: nothing is done again but
# the two steps that were in work when it was killed, both times.
merged=2
: > calls
killed_at count 20
killed_at merge 10
flow killed "$work/programs/slow" --rerun-incomplete || fails "a killed run did not go on"
is_right killed "a killed run"
steps=$(($(calls count) + $(calls merge)))
[ "$(calls count)" -ge $parts ] && [ "$(calls merge)" -ge $((parts - 1)) ] && [ $steps -le $((2 * parts - 1 + 4)) ] \
    || fails "$(calls count) counts of $parts parts, and $(calls merge) merges of their tables"
merged=64

# A file that is newer than its list has to be cut again: the run says so, and goes on when the list is gone.
mended() {
    ! flow "$1" "$program" --rerun-incomplete || fails "a run took the old parts of a file that has changed"
    grep -q "remove $1/parts/reads_shotgun.fq.tsv to count it again" log \
        || fails "nothing tells of a file that has changed"
    rm "$1/parts/reads_shotgun.fq.tsv"
}
# A part that is refused stops the run, with kcount's line; when the file is mended the run goes on to the right table.
cp reads/shotgun.fq good.fq
sed -i '82s/./@/5' reads/shotgun.fq
! flow refused "$program" || fails "a run with a refused part ended well"
[ "$(cat refused/logs/reads_shotgun.fq/part_003.fq.log)" = 'kcount: 2: bad base, source 1, line 26' ] \
    || fails "the log of the refused part is another: $(cat refused/logs/reads_shotgun.fq/part_003.fq.log)"
[ ! -e refused/table.kct ] || fails "a run with a refused part has a table"
cp good.fq reads/shotgun.fq
mended refused
flow refused "$program" --rerun-incomplete || fails "a run with a mended file failed"
is_right refused "a run with a mended file"

# A file that changes after a run, and one that comes before the others, are counted by the next one.
sleep 1
head -n 400 good.fq > reads/shotgun.fq
mended plain
flow plain "$program" || fails "a run over a changed file failed"
is_right plain "a run over a changed file"
cp good.fq reads/added.fq
flow plain "$program" || fails "a run with one more file failed"
is_right plain "a run with one more file"

# A sum that lacks reads is no result.
! flow forgetful "$work/programs/forgetful" || fails "a run whose sums lack reads ended well"
grep -q '^the table has [0-9]* reads, and the parts have [0-9]*$' forgetful/logs/whole.log \
    || fails "nothing tells of lost reads"
[ ! -e forgetful/table.kct ] || fails "a table that lacks reads stayed"

# refuses NAME SETTING..: a run with these settings ends with a line that has the name, and makes nothing
refuses() {
    ! called results=settings "${@:2}" || fails "a run ended well with ${*:2}"
    grep -q "^ValidationError: .*$1" log || grep -q "^Failed validating .*$1" log || fails "nothing names $1: ${*:2}"
    [ ! -e settings ] || fails "a run with a faulty setting made something: ${*:2}"
}
refuses "'reads_per_prt' was unexpected" "reads=reads/*" reads_per_prt=7
refuses "'reads' is a required property" k=15
refuses "\['k'\]" "reads=reads/*" k=32
refuses "\['both_strands'\]" "reads=reads/*" both_strands=yes
refuses "\['genome_size'\]" "reads=reads/*" genome_size=large
! called "reads=reads/*" results=settings memory_per_job=120 threads=4 \
    || fails "a run ended well with too little memory"
grep -q '^memory_per_job: 120 MB are too few for 4 threads$' log || fails "nothing names too little memory"

# Files without reads have 0 of them, with text or without; a damaged file stops the run.
mkdir odd
: > odd/none.fq
gzip -c odd/none.fq > odd/none.fa.gz
printf '\n\r\n' > odd/blank.fq
called "reads=odd/*" results=none "kcount=$program" k=15 || fails "a run over files without reads failed"
"$program" count -m 15 -C odd/none.fq | cmp -s - none/table.kct || fails "files without reads have another table"
[ "$(head -c 4 none/spectrum.png | tail -c 3)" = PNG ] || fails "files without reads have no picture"
cp reads/reads.fa good.fq odd
called "reads=odd/*" results=odd-results "kcount=$program" k=15 reads_per_part=7 \
    || fails "a run over files with and without reads failed"
"$program" count -m 15 -C odd/reads.fa odd/good.fq | cmp -s - odd-results/table.kct \
    || fails "files without reads change the table of others"
[ "$(cat odd-results/parts/odd_blank.fq.tsv)" = "$(printf 'whole\t0\t0\t0')" ] \
    || fails "blank lines are listed as reads"
for size in 5 3000; do
    head -c $size reads/again.fq.gz > odd/damaged.fq.gz
    ! called reads=odd/damaged.fq.gz results=damaged "kcount=$program" k=15 \
        || fails "a run over a damaged file ended well"
    [ -s damaged/logs/odd_damaged.fq.gz/cut.log ] || fails "the log of a damaged file is empty"
    [ ! -e damaged/table.kct ] || fails "a run over a damaged file has a table"
done

# The memory of a job decides the parts: (100 - 51) MB / 28.4 bytes are 1,725,352 bases. No count asks for more than
# 100 MB. The room on disk is printed first: 207 bytes for each read, and 19 for each row. The 3.44 million k-mers make
# as many rows in the sum and in its halves, and one turn of tables, a 32nd part, waits for its neighbours.
awk 'BEGIN {
    srand(1)
    for (i = 0; i < 100; i++) qualities = qualities "I"
    for (read = 0; read < 40000; read++) {
        bases = ""
        for (i = 0; i < 100; i++) bases = bases substr("ACGT", int(4 * rand()) + 1, 1)
        print "@r\n" bases "\n+\n" qualities
    }
}' > long.fq
called reads=long.fq results=sized "kcount=$program" k=15 memory_per_job=100 -- --notemp sized/parts.tsv \
    || fails "a long file isn't cut"
[ "$(cut -f 2-4 sized/parts.tsv | tr '\t\n' '  ')" = \
    'part_001.fq 17254 1725400 part_002.fq 17254 1725400 part_003.fq 5492 549200 ' ] \
    || fails "memory_per_job makes other parts: $(cat sized/parts.tsv)"
for line in '1 files with some 40,000 reads and 4,000,000 bases: some 3 parts' 'a part has at most 1,725,352 bases' \
    'room on disk for parts: 8.3 MB' 'room on disk for tables and sums: 132.8 MB; 65.4 MB of it for the result'; do
    grep -qx "kcount: $line" <(sed '/^Building DAG of jobs/q' log) || fails "this isn't printed first: $line"
done
called reads=long.fq results=sized "kcount=$program" k=15 memory_per_job=100 -- --dry-run || fails "a dry run fails"
asked=$(grep -A 8 '^rule count_' log | sed -n 's/.*mem_mb=\([0-9]*\).*/\1/p' | sort -n | tr '\n' ' ')
[ "$asked" = '66 100 100 ' ] || fails "the counts ask for $asked MB"
# Where the genome has 100,000 bases and all bases are right, 4 million bases have 100,000 k-mers and fit in one count.
called reads=long.fq results=known "kcount=$program" k=15 memory_per_job=100 genome_size=100k wrong_bases=0 -- \
    known/parts.tsv || fails "a file isn't looked at"
[ "$(cut -f 2-4 known/parts.tsv)" = "$(printf 'whole\t40000\t4000000')" ] || fails "genome_size makes no larger parts"

# Twenty files on four cores, in steps that take a second or more: by Snakemake's own records three steps or more are at
# work in more than a quarter of the time from the first cut to the last one, and to the last count. (On a processor that
# does nothing else it is nine tenths; where files are cut one after another it is none.)
mkdir -p many/reads many/programs
for file in $(seq -w 20); do cp good.fq "many/reads/$file.fq"; done
cp reads/reads.fa many/reads
seqkit=$(command -v seqkit)
cat > many/programs/seqkit <<SLOW
#!/bin/bash
[ "\$1" != split2 ] || { echo "\${*: -1}" >> "$work/many/cut"; sleep 1; }
exec "$seqkit" "\$@"
SLOW
cat > many/programs/kcount <<SLOW
#!/bin/bash
sleep 1
exec "$program" "\$@"
SLOW
chmod +x many/programs/*
at_work() {
    python3 - <<'PYTHON'
import glob, json, os
# (a record is of one file, and a job may make two; each job has a log of its own)
jobs = {}
for path in filter(os.path.isfile, glob.glob(".snakemake/metadata/**", recursive=True)):
    with open(path) as file:
        record = json.load(file)
    log = record["log"][0] if record["log"] else path
    jobs[log] = max(jobs.get(log, (0,)), (record["endtime"], record["starttime"], record["rule"].split("_")[0]))
for rules in (["cut"], ["cut", "count"]):
    spans = [(start, end) for end, start, rule in jobs.values() if rule in rules]
    begin, last = min(start for start, _ in spans), max(end for _, end in spans)
    moments = [begin + (last - begin) * (n + 0.5) / 1000 for n in range(1000)]
    busy = sum(sum(start <= it < end for end, start, _ in jobs.values()) >= 3 for it in moments)
    print(rules[-1], len(spans), "good" if busy > 250 else f"three at work in {busy / 10} % of the time")
PYTHON
}
cd many
PATH=$work/many/programs:$PATH called "reads=reads/*" results=results kcount=kcount k=15 reads_per_part=120 -- \
    --cores 4 || fails "a run over twenty files failed"
[ "$(at_work)" = $'cut 21 good\ncount 62 good' ] || fails "of twenty files too few steps ran at a time: $(at_work)"
[ "$(sort cut | tr '\n' ' ')" = "$(printf 'reads/%02d.fq ' $(seq 20))" ] || fails "another file than these was cut"
"$program" count -m 15 -C reads/* | cmp -s - results/table.kct || fails "twenty files have another table"
cd ..
echo "workflow: $parts parts give the table of all files, also after runs that were killed, refused or changed"
