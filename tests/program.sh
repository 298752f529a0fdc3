#!/bin/bash
# Runs the program as a whole, and compares byte by byte what it writes to each stream, and how it ends:
#   tests/program.sh
# The texts of its help stand in tests/texts/. Each range and each default that the help tells has to be the program's,
# `-t` has to start as many threads, and each fault that can be brought about from outside has its line;
# `crates/kc_tests` and tests/files.sh have more of these. The parts of an example that are counted apart have to be the
# whole when they are put together. It needs bin/kcount and a C compiler.
set -euo pipefail
here=$(cd "$(dirname "$0")" && pwd)
program=$here/../bin/kcount
definitions=$here/../crates/kc_command/specs
[ -x "$program" ] || { echo "no bin/kcount: run make build first"; exit 1; }
work=$(mktemp -d)
trap 'rm -rf "$work"' EXIT
cc -O2 -shared -fPIC -o "$work/watch.so" "$here/watch_threads.c" -ldl
mkdir "$work/here" "$work/here/a-directory"
cd "$work/here"

ran=0
# Runs a command on this input, and compares its status, its output and its errors.
wants() {
    local status=$1 output=$2 errors=$3 input=$4 got=0
    shift 4
    printf '%s' "$input" > "$work/input"
    "$@" < "$work/input" > "$work/output" 2> "$work/errors" || got=$?
    same "its errors" "$errors" "$work/errors" "$@"
    same "its output" "$output" "$work/output" "$@"
    same "its status" "$status" <(printf '%s' "$got") "$@"
    ran=$((ran + 1))
}
same() {
    local what=$1 wanted=$2 got=$3
    shift 3
    cat "$got" > "$work/got"
    printf '%s' "$wanted" | cmp -s - "$work/got" && return
    printf 'program: %s of %s\n' "$what" "$*"
    # (a last line without its line feed is one that differs)
    diff <(printf '%s.\n' "$wanted") <(cat "$work/got"; echo .) || true
    exit 1
}
fails() {
    echo "program: $*"
    exit 1
}

# The ways in which the program is run here.
kcount() { "$program" "$@"; }
# from a pipe, in two parts
through_a_pipe() { { cat; sleep 0.2; printf 'ACG\n'; } | "$program" "$@"; }
of_a_directory() { "$program" "$@" < a-directory; }
of_a_file() {
    local file=$1
    shift
    "$program" "$@" < "$file"
}
into_a_full_device() { "$program" "$@" > /dev/full; }
with_full_errors() { "$program" "$@" 2> /dev/full; }
with_closed_errors() { "$program" "$@" 2>&-; }
with_both_full() { "$program" "$@" > /dev/full 2>&1; }
in_little_memory() { (ulimit -v 100000 && "$program" "$@"); }
without_thread() {
    local number=$1
    shift
    REFUSE=$number LD_PRELOAD=$work/watch.so "$program" "$@"
}

reads=$'>r1\nACGTA\n'
table=$'KCT 2 3 c a 33 1\nACG 2\nGTA 1\nEND 2 3\n'
older=$'KCT 1 3 c\nACG 2\nGTA 1\nEND 2 3\n'
printf '%s' "$reads" > reads.fa
printf '%s' "$table" > two.kct
printf '%s' "$older" > older.kct
more=$'\nFor more information, try \'--help\'.\n'
usage=$'\nUsage: kcount <COMMAND>\n'
usage_of_count=$'\nUsage: kcount count [OPTIONS] [FILE]...\n'
usage_of_merge=$'\nUsage: kcount merge <FIRST> <SECOND>...\n'
usage_of_select=$'\nUsage: kcount select <TABLE> [FILE]...\n'
usage_of_profile=$'\nUsage: kcount profile <TABLE> [FILE]...\n'

# The help goes to the output, and the version does.
helps() {
    local text
    text=$(cat "$here/texts/$1.txt"; echo .)
    shift
    wants 0 "${text%.}" '' "$reads" kcount "$@"
}
helps kcount --help
helps kcount -h
helps kcount help
for command in count dump histo stats query merge intersect subtract filter compare select profile; do
    helps "$command" "$command" --help
    helps "$command" "$command" -h
    helps "$command" help "$command"
done
helps count count -m 3 --help missing
wants 0 $'kcount 0.1.0\n' '' "$reads" kcount --version
wants 0 $'kcount 0.1.0\n' '' "$reads" kcount -V

# A command line that can't be read is refused with status 2, on the errors alone.
refuses() {
    local text=$1
    shift
    wants 2 '' "error: $text$more" "$reads" kcount "$@"
}
refuses $'\'kcount\' requires a subcommand but one was not provided\n  [subcommands: count, dump, histo, stats, query, merge, intersect, subtract, filter, compare, select, profile, help]\n'"$usage"
refuses $'unrecognized subcommand \'frob\'\n'"$usage" frob
refuses $'unrecognized subcommand \'frob\'\n'"$usage" frob --help
refuses $'unrecognized subcommand \'coun\'\n\n  tip: a similar subcommand exists: \'count\'\n'"$usage" coun -m 3
refuses $'unexpected argument \'-x\' found\n'"$usage" -x
refuses $'a value is required for \'--mer-len <K>\' but none was supplied\n' count -m
refuses $'a value is required for \'--output <FILE>\' but none was supplied\n' count -m 3 -o
refuses $'a value is required for \'--print <WHAT>\' but none was supplied\n' count -m 3 --print
refuses $'a value is required for \'--high <N>\' but none was supplied\n' histo --high
refuses $'a value is required for \'--only <FILE>\' but none was supplied\n' count -m 3 --only
refuses $'the argument \'--only <FILE>\' cannot be used multiple times\n'"$usage_of_count" count -m 3 --only a --only b
refuses $'the argument \'--mer-len <K>\' cannot be used multiple times\n'"$usage_of_count" count -m 3 -m 4
refuses $'unexpected argument \'--frob\' found\n\n  tip: to pass \'--frob\' as a value, use \'-- --frob\'\n'"$usage_of_count" count --frob
refuses $'unexpected argument \'b\' found\n\nUsage: kcount stats [OPTIONS] [FILE]\n' stats a b
refuses $'the following required arguments were not provided:\n  <TABLE>\n\nUsage: kcount query <TABLE> [WORD]...\n' query
refuses $'the following required arguments were not provided:\n  <TABLE>\n\nUsage: kcount query --file <WORDS> <TABLE> [WORD]...\n' query --file words
refuses $'a query needs a WORD, or a list of words: --file <WORDS>\n\nUsage: kcount query [OPTIONS] <TABLE> [WORD]...\n' query two.kct
refuses $'a query needs a WORD, or a list of words: --file <WORDS>\n\nUsage: kcount query [OPTIONS] <TABLE> [WORD]...\n' query missing
refuses $'the following required arguments were not provided:\n  <FIRST>\n  <SECOND>...\n'"$usage_of_merge" merge
refuses $'the following required arguments were not provided:\n  <SECOND>...\n'"$usage_of_merge" merge two.kct
for command in merge intersect subtract; do
    tables=$(printf 'two.kct %.0s' {1..64})
    refuses $'at most 64 tables can be combined\n\nUsage: kcount '"$command"$' [OPTIONS] <FIRST> <SECOND>...\n' "$command" $tables missing
done
refuses $'the following required arguments were not provided:\n  <SECOND>...\n\nUsage: kcount intersect <FIRST> <SECOND>...\n' intersect two.kct
refuses $'the following required arguments were not provided:\n  <SECOND>...\n\nUsage: kcount subtract <FIRST> <SECOND>...\n' subtract two.kct
refuses $'the following required arguments were not provided:\n  <READS>\n  <ASSEMBLY>\n\nUsage: kcount compare <READS> <ASSEMBLY>\n' compare
refuses $'unexpected argument \'c\' found\n\nUsage: kcount compare [OPTIONS] <READS> <ASSEMBLY>\n' compare a b c
refuses $'a value is required for \'--take <WHICH>\' but none was supplied\n' intersect two.kct two.kct --take
refuses $'unexpected argument \'b\' found\n\nUsage: kcount filter [OPTIONS] [FILE]\n' filter a b
refuses $'unexpected argument \'-C\' found\n\n  tip: to pass \'-C\' as a value, use \'-- -C\'\n\nUsage: kcount merge [OPTIONS] <FIRST> <SECOND>...\n' merge -C two.kct two.kct
refuses $'the following required arguments were not provided:\n  <TABLE>\n'"$usage_of_select" select
refuses $'the following required arguments were not provided:\n  <TABLE>\n'"$usage_of_profile" profile
refuses $'a value is required for \'--min-share <P>\' but none was supplied\n' select two.kct --min-share
refuses $'a value is required for \'--keep <WHICH>\' but none was supplied\n' select two.kct --pairs a b --keep
refuses $'a value is required for \'--output2 <FILE>\' but none was supplied\n' select two.kct --pairs a b -o c --output2
# options that don't go together, whatever their values are, and whether the files are there or not
usage_of_pairs=$'\n\nUsage: kcount select [OPTIONS] <TABLE> [FILE]...\n'
refuses "the argument '--keep <WHICH>' cannot be used without '--pairs'$usage_of_pairs" select --keep any --output2 b two.kct
refuses "the argument '--keep <WHICH>' cannot be used without '--pairs'$usage_of_pairs" select --keep one --min-count x missing
refuses "the argument '--output2 <FILE>' cannot be used without '--pairs'$usage_of_pairs" select -o a --output2 b two.kct a b
for files in '' 'a' 'a b c'; do
    # shellcheck disable=SC2086
    refuses "the argument '--pairs' requires two files behind <TABLE>, FIRST and SECOND$usage_of_pairs" select --pairs two.kct $files
done
refuses "the argument '--output2 <FILE>' cannot be used without '--output <FILE>'$usage_of_pairs" select --pairs --output2 b two.kct a b
refuses "with '--pairs' the argument '--output <FILE>' cannot be used without '--output2 <FILE>'$usage_of_pairs" select --pairs -o a two.kct a b
refuses "the arguments '--output <FILE>' and '--output2 <FILE>' cannot name the same file$usage_of_pairs" select --pairs -o a --output2 a two.kct a b
refuses $'the argument \'--pairs\' cannot be used multiple times\n\nUsage: kcount select [OPTIONS] <TABLE> [FILE]...\n' select --pairs --pairs two.kct a b

# The program hands on what it is given: each report goes to the output, and its input, all of it, and its arguments
# arrive.
dump=$'>2\nACG\n>1\nGTA\n'
histo=$'1 1\n2 1\n'
stats=$'Unique:    1\nDistinct:  2\nTotal:     3\nMax_count: 2\n'
ten=$'>r\nAAAAAAAAAA\n'
columns=(--print dump --column)
wants 0 "$table" '' "$reads" kcount count -m 3 -C
wants 0 "$dump" '' "$reads" kcount count -m 3 -C --print dump
wants 0 "$histo" '' "$reads" kcount count -m 3 -C --print histo
wants 0 "$stats" '' "$reads" kcount count -m 3 -C --print stats
wants 0 $'GTA\t1\n' '' "$reads" kcount count -m 3 -C "${columns[@]}" --tab --upper-count 1
wants 0 $'8 1\n' '' "$ten" kcount count -m 3 --print histo
wants 0 $'6 1\n' '' "$ten" kcount count -m 3 --print histo --high 5
wants 0 $'Unique:    0\nDistinct:  0\nTotal:     0\nMax_count: 0\n' '' '' kcount count -m 5 --print stats
wants 0 $'AAC 1\nACG 3\nGTA 1\nTAA 1\n' '' "$reads" through_a_pipe count -m 3 -C "${columns[@]}"
wants 0 "$dump" '' "$table" kcount dump
wants 0 $'>2\nACG\n' '' "$table" kcount dump -L 2
wants 0 $'GTA\t1\n' '' "$table" kcount dump -c -t -U 1
wants 0 $'ACG 2\nGTA 1\n' '' "$table" kcount dump --column --lower-count 1 --upper-count 2
wants 0 "$histo" '' "$table" kcount histo
wants 0 "$stats" '' "$table" kcount stats
wants 0 $'ACG 2\nAAA 0\n' '' '' kcount query two.kct CGT aaa
wants 0 $'KCT 2 3 c a 33 2\nACG 4\nGTA 2\nEND 2 6\n' '' '' kcount merge two.kct two.kct
# (a table of the first version says the same to each of them)
wants 0 "$dump" '' "$older" kcount dump
wants 0 "$histo" '' "$older" kcount histo
wants 0 "$stats" '' "$older" kcount stats
wants 0 $'ACG 2\nAAA 0\n' '' '' kcount query older.kct CGT aaa
wants 0 $'KCT 1 3 c\nACG 4\nGTA 2\nEND 2 6\n' '' '' kcount merge older.kct older.kct
mapfile -t words < <(for _ in $(seq 50); do printf 'TAC\naaa\n'; done)
wants 0 $'>r1\nACGTAACG\n' '' "$reads" through_a_pipe select --min-count 0 two.kct
wants 0 "$reads" '' "$reads" kcount select --min-share 66 older.kct
wants 0 "$(for _ in $(seq 50); do printf 'GTA 1\nAAA 0\n'; done)"$'\n' '' '' kcount query two.kct "${words[@]}"

# A query looks up the words of a list after those of the command line. Lines end as on Unix or as on Windows, or with
# the list, which may be gzip, and blank lines are none.
printf 'aaa\r\n\n\r\nTAC' > words
gzip -c words > words.gz
: > empty
for list in words words.gz; do
    wants 0 $'ACG 2\nAAA 0\nGTA 1\n' '' '' kcount query --file "$list" two.kct CGT
    wants 0 $'AAA 0\nGTA 1\n' '' '' kcount query two.kct --file "$list"
    wants 0 $'AAA 0\nGTA 1\n' '' "$table" of_a_file "$list" query two.kct --file /dev/stdin
done
wants 0 '' '' '' kcount query --file empty two.kct
wants 0 $'GTA 1\n' '' '' kcount query --file empty two.kct gta

# The help tells a range of an option, the ends of which are taken and give these outputs; one less and one more are
# refused.
ranges() {
    local command=$1 option=$2 range=$3 low=$4 high=$5 input=$table least most
    local run=(kcount "$command")
    [[ $(told_of "$command" "$option") == *" $range"[,\;\ ]* ]] || fails "the help of $command doesn't tell $range of --$option"
    if [ "$command" = count ]; then
        input=$reads
        [ "$option" = mer-len ] || run+=(-m 3)
    fi
    if [ "$command" = select ] || [ "$command" = profile ]; then
        input=$reads
        run+=(two.kct)
    fi
    least=${range%%[ ,]*}
    most=${range##* }
    most=$((${most/^/**}))
    wants 0 "$low" '' "$input" "${run[@]}" "--$option=$(value_of "$option" "$least")"
    wants 0 "$high" '' "$input" "${run[@]}" "--$option=$(value_of "$option" "$most")"
    fault 2 "51: bad option --$option" "$input" "${run[@]}" "--$option=$(value_of "$option" $((least - 1)))"
    fault 2 "51: bad option --$option" "$input" "${run[@]}" "--$option=$(value_of "$option" $((most + 1)))"
}
# What the help of a command says of an option, in one line.
told_of() {
    kcount "$1" --help \
        | awk -v name="--$2" '/^ +-/ { inside = $1 == name || $2 == name } /^$/ { inside = 0 } inside { $1 = $1; printf "%s ", $0 }'
}
# A quality is told by its number, and given as a letter.
value_of() {
    if [ "$1" = min-qual-char ]; then
        # shellcheck disable=SC2059
        printf "\\$(printf %o "$2")"
    else
        printf %s "$2"
    fi
}
# A fault has its line on the errors, and nothing goes to the output.
fault() {
    local status=$1 line=$2 input=$3
    shift 3
    wants "$status" '' "kcount: $line"$'\n' "$input" "$@"
}
one=$'KCT 2 3 s a 33 1\nACG 1\nCGT 1\nGTA 1\nEND 3 3\n'
ranges count mer-len '1 to 31' $'KCT 2 1 s a 33 1\nA 2\nC 1\nG 1\nT 1\nEND 4 5\n' $'KCT 2 31 s a 33 1\nEND 0 0\n'
ranges count size '1 to 2^40' "$one" "$one"
ranges count threads '1 to 64' "$one" "$one"
ranges count min-qual-char '33 to 126' "$one" "${one/a 33/a 126}"
ranges count stripes '1, 2, 4, 8, 16, 32 or 64' "$one" "$one"
ranges count batch '1 to 2^36' "$one" "$one"
ranges count lower-count '0 to 2^62' "$one" "$one"
ranges count upper-count '0 to 2^62' "$one" "$one"
ranges count high '1 to 10000000' "$one" "$one"
ranges dump lower-count '0 to 2^62' "$dump" ''
ranges dump upper-count '0 to 2^62' '' "$dump"
ranges filter lower-count '0 to 2^62' "$older" "${older/ACG*/END 0 0$'\n'}"
ranges filter upper-count '0 to 2^62' "${older/ACG*/END 0 0$'\n'}" "$older"
ranges histo high '1 to 10000000' "$histo" "$histo"
ranges select min-count '0 to 2^62' "$reads" ''
ranges select max-count '0 to 2^62' '' ''
ranges select min-share '0 to 100' "$reads" ''
ranges select min-qual-char '33 to 126' '' ''
profile=$'r1\t0\t2\t2\nr1\t2\t3\t1\n'
ranges profile min-qual-char '33 to 126' "$profile" "$profile"
for stripes in 2 4 8 16 32; do wants 0 "$one" '' "$reads" kcount count -m 3 --stripes "$stripes"; done
for size in 500 20k 2M 2G; do wants 0 "$one" '' "$reads" kcount count -m 3 -s "$size"; done

# The help tells a default, and the definitions of what a count, or a selection, is asked for have it.
defaults() {
    local option=$1 told=$2 setting=$3 asked=$4 of=${5:-count} command help
    for command in count dump histo select profile; do
        help=$(told_of "$command" "$option")
        [ -n "$help" ] || [ "$command" != "$of" ] || fails "the help of $of has no --$option"
        [[ -z $help || $help == *"[default: $told"[],]* ]] || fails "the help of $command has another default of --$option"
    done
    [ -z "$setting" ] || grep -qE "(^| )$setting(;| \})" "$definitions/Settings.antt" || fails "Settings.antt doesn't have $setting, as the help tells"
    grep -qE "or_default $asked .*\(codes \"$option\"\) rows\)" "$definitions/Options.antt" \
        || fails "Options.antt doesn't have $asked for --$option, as the help tells"
}
defaults size 1M 'size = 1000000' 1000000
defaults threads 1 'workers = 1' 1
defaults min-qual-char '!' 'floor = 33' 33
defaults stripes 16 'stripes = lowered k 16' 16
defaults batch 65536 'batch = 65536' 65536
defaults print table 'print = Table' 'report\.Table'
defaults lower-count 0 'lower = 0' 0
defaults upper-count 2^62 'upper = 2 \^ 62' '\(2 \^ 62\)'
defaults high 10000 'high = 10000' 10000
defaults min-count 2 '' 2 select
defaults max-count 2^62 '' '\(2 \^ 62\)' select
defaults min-share 100 '' 100 select
defaults keep both '' 'asks\.All' select

# Without an option the output is as with its default, and another value gives another output.
usual() {
    local input=$1 option=$2 default=$3 output=$4 other=$5 another=$6
    shift 6
    wants 0 "$output" '' "$input" kcount "$@"
    wants 0 "$output" '' "$input" kcount "$@" "--$option=$default"
    wants 0 "$another" '' "$input" kcount "$@" "--$option=$other"
}
letters() { printf '%*s' "$2" '' | tr ' ' "$1"; }
frequent=$'KCT 2 1 s a 33 1\nA 9999\nC 10000\nG 10001\nT 10002\nEND 4 40002\n'
often=$'>r\n'$(letters A 9999)$(letters C 10000)$(letters G 10001)$(letters T 10002)$'\n'
greatest=$'KCT 1 1 s\nA 4611686018427387904\nEND 1 4611686018427387904\n'
usual $'@q\nACG\n+\n!"!\n' min-qual-char '!' $'A 1\nC 1\nG 1\n' '"' $'C 1\n' count -m 1 "${columns[@]}"
usual "$reads" print table "$one" stats $'Unique:    3\nDistinct:  3\nTotal:     3\nMax_count: 1\n' count -m 3
# (no count is 0, so a lower bound of 1 says the same as the default)
usual "$reads" lower-count 0 $'ACG 2\nGTA 1\n' 2 $'ACG 2\n' count -m 3 -C "${columns[@]}"
usual "$table" lower-count 0 "$dump" 2 $'>2\nACG\n' dump
usual "$reads" upper-count 4611686018427387904 $'ACG 2\nGTA 1\n' 1 $'GTA 1\n' count -m 3 -C "${columns[@]}"
usual "$greatest" upper-count 4611686018427387904 $'A 4611686018427387904\n' 4611686018427387903 '' dump -c
for high in 9999 10001; do
    another=$'9999 1\n10000 3\n'
    [ "$high" = 9999 ] || another=$'9999 1\n10000 1\n10001 1\n10002 1\n'
    usual "$often" high 10000 $'9999 1\n10000 1\n10001 2\n' "$high" "$another" count -m 1 --print histo
    usual "$frequent" high 10000 $'9999 1\n10000 1\n10001 2\n' "$high" "$another" histo
done
usual "$reads" min-count 2 '' 1 "$reads" select two.kct
usual $'>r\nACG\n' max-count 4611686018427387904 $'>r\nACG\n' 1 '' select two.kct
usual "$reads" min-share 100 '' 66 "$reads" select two.kct
usual $'@q\nACGTA\n+\nIIII!\n' min-qual-char '!' '' '"' $'@q\nACGTA\n+\nIIII!\n' select two.kct
usual $'@r1\nACGTA\n+\nIIII!\n' min-qual-char '!' "$profile" '"' $'r1\t0\t2\t2\n' profile two.kct

# Where a list is given, the k-mers of its reads alone are counted, by the rule of the count; the table says that there
# was one.
only() {
    local text=$1 output=$2 input=$3
    shift 3
    printf '%s' "$text" > list.fa
    wants 0 "$output" '' "$input" kcount count --only list.fa "$@"
}
printf '>x\nAAA\n' > none.fa
listed=$'KCT 2 3 s o 33 1\nCGT 1\nEND 1 1\n'
only $'>w\nCGT\n' $'CGT 1\n' "$reads" -m 3 "${columns[@]}"
only $'>w\nCGT\n' $'ACG 2\n' "$reads" -m 3 -C "${columns[@]}"
only $'>w\nCGTA\n' $'CGT 1\nGTA 1\n' "$reads" -m 3 "${columns[@]}"
only '' $'Unique:    0\nDistinct:  0\nTotal:     0\nMax_count: 0\n' "$reads" -m 3 --print stats
only $'>w\nCGT\n' "$listed" "$reads" -m 3
only $'>w\nCGT\n' "$listed" '' -m 3 reads.fa
only $'>w\nCGT\n' "${listed/o 33 1/o 33 2}" '' -m 3 reads.fa none.fa
only '' $'KCT 2 3 s o 33 1\nEND 0 0\n' "$reads" -m 3
# in lower case, with an N, over several reads, in lines, and a k-mer that no read has
only $'>w\ncgtNac\n' "$listed" "$reads" -m 3
only $'>w\nACG\n>x\nAAA\n>y\nG\nTA\n' $'ACG 1\nGTA 1\n' "$reads" -m 3 "${columns[@]}"
# on either strand with -C, and as it stands without
only $'>w\nTAC\n' $'GTA 1\n' "$reads" -m 3 -C "${columns[@]}"
only $'>w\nTAC\n' '' "$reads" -m 3 "${columns[@]}"
# no k-mer is in a list whose reads are shorter
only $'>w\nCG\n>x\nTA\n' '' "$reads" -m 3 "${columns[@]}"
# the floor holds for the list too
only $'@w\nCGTA\n+\nIII!\n' "${listed/33/34}" "$reads" -m 3 --min-qual-char '"'
only $'@w\nCGTA\n+\nIII!\n' $'CGT 1\nGTA 1\n' "$reads" -m 3 "${columns[@]}"
long_word=$(letters T 31)
only $'>w\n'"$long_word"$'\n' "$long_word"$' 2\n' $'>r\nC'"$long_word"$'T\n' -m 31 "${columns[@]}"
# several threads, stripes and batches ask one list
only $'>w\nAAA\n' $'AAA 8\n' "$ten" -m 3 -t 4 --stripes 64 --batch 1 "${columns[@]}"
wants 0 "${one/a 33/o 33}" '' '' kcount count -m 3 --only reads.fa reads.fa
# its faults come before those of the sources, and have source number 0
bad_list() {
    printf '%s' "$2" > list.fa
    fault 1 "$1" $'>r\nA@C\n' kcount count -m 3 --only list.fa
}
bad_list '1: bad start, source 0, line 1' $'ACG\n'
bad_list '2: bad base, source 0, line 2' $'>w\nA@C\n'
bad_list '5: truncated, source 0, line 4' $'@w\nACG\n+\nII'
bad_list '2: bad base, source 1, line 2' $'>w\nACG\n'
fault 1 '7: read failed, source 0' $'>r\nA@C\n' kcount count -m 3 --only a-directory

# Two tables are put together. Where that can't be, both have been read.
merges() {
    printf '%s' "$1" > first.kct
    printf '%s' "$2" > second.kct
    wants 0 "$3" '' '' kcount merge first.kct second.kct
}
unlike() {
    printf '%s' "$2" > first.kct
    printf '%s' "$3" > second.kct
    fault 1 "$1" '' kcount merge first.kct second.kct
}
empty=$'KCT 2 3 s a 33 0\nEND 0 0\n'
acg=$'KCT 2 3 s a 33 1\nACG 1\nEND 1 1\n'
old=$'KCT 1 3 s\nACG 1\nEND 1 1\n'
sum=$'KCT 2 3 s a 33 2\nACG 2\nCGT 1\nGTA 1\nEND 3 4\n'
merges "$one" "$acg" "$sum"
merges "$acg" "$one" "$sum"
merges "$one" "$old" "${sum/2 3 s a 33 2/1 3 s}"
merges "$old" "$one" "${sum/2 3 s a 33 2/1 3 s}"
merges "$one" "$empty" "$one"
merges "$empty" "$one" "$one"
# (an origin that one of them lacks is not told of both)
merges "$old" "$old" $'KCT 1 3 s\nACG 2\nEND 1 2\n'
merges "${acg/33/35}" "$old" $'KCT 1 3 s\nACG 2\nEND 1 2\n'
unlike '61: tables do not match' "$acg" "${acg/33/35}"
unlike '61: tables do not match' "$acg" "${acg/3 s/3 c}"
unlike '61: tables do not match' "$acg" "${acg/ a / o }"
unlike '61: tables do not match' "${acg/ a / o }" "$acg"
unlike '61: tables do not match' "${acg/ a / o }" "$old"
unlike '61: tables do not match' "$acg" $'KCT 2 4 s a 33 1\nEND 0 0\n'
unlike '61: tables do not match' "${old/s/c}" "$old"
# a count, and a number of reads, may be 2^62 and no more; what does not match is told first
most=$'KCT 1 3 s\nACG 4611686018427387904\nEND 1 4611686018427387904\n'
many_reads=$'KCT 2 3 s a 33 4611686018427387904\nEND 0 0\n'
merges "${most//904/903}" "$old" "$most"
merges "${many_reads/904/903}" "$acg" "${acg/ 1/ 4611686018427387904}"
merges "$many_reads" "$old" "$old"
unlike '62: sums too large' "$most" "$most"
unlike '62: sums too large' "$most" "$old"
unlike '62: sums too large' "$many_reads" "$acg"
unlike '61: tables do not match' "$most" "${acg/3 s/3 c}"
unlike '61: tables do not match' "$many_reads" "${acg/33/34}"

# Any number of tables are merged, and combined in other ways. The result of another way is of version 1.
printf '%s' "$one" > one.kct
printf '%s' "$acg" > acg.kct
merged=$'KCT 2 3 s a 33 3\nACG 3\nCGT 1\nGTA 1\nEND 3 5\n'
shared=$'KCT 1 3 s\nACG 1\nEND 1 1\n'
nothing=$'KCT 1 3 s\nEND 0 0\n'
three_times=$'KCT 1 3 s\nACG 3\nEND 1 3\n'
wants 0 "$merged" '' '' kcount merge one.kct acg.kct acg.kct
wants 0 "$merged" '' '' kcount merge acg.kct acg.kct one.kct
printf '%s' "$merged" > merged.kct
# shellcheck disable=SC2046
wants 0 $'KCT 2 3 s a 33 64\nACG 64\nEND 1 64\n' '' '' kcount merge $(printf 'acg.kct %.0s' {1..64})
wants 0 "$shared" '' '' kcount intersect one.kct acg.kct
wants 0 "$shared" '' '' kcount intersect acg.kct merged.kct one.kct
wants 0 "$three_times" '' '' kcount intersect --take max acg.kct merged.kct one.kct
wants 0 $'KCT 1 3 s\nACG 5\nEND 1 5\n' '' '' kcount intersect --take sum acg.kct merged.kct one.kct
wants 0 "$three_times" '' '' kcount intersect --take first merged.kct acg.kct
wants 0 $'KCT 1 3 s\nCGT 1\nGTA 1\nEND 2 2\n' '' '' kcount subtract one.kct acg.kct
wants 0 "$nothing" '' '' kcount subtract one.kct one.kct
wants 0 $'KCT 1 3 s\nACG 2\nEND 1 2\n' '' '' kcount subtract --counts merged.kct one.kct
wants 0 $'KCT 1 3 s\nACG 1\nEND 1 1\n' '' '' kcount subtract --counts merged.kct one.kct acg.kct
wants 0 "$three_times" '' '' kcount filter -L 2 merged.kct
wants 0 "$three_times" '' "$merged" kcount filter --lower-count 2
wants 0 $'KCT 1 3 s\nCGT 1\nGTA 1\nEND 2 2\n' '' '' kcount filter -U 2 merged.kct
wants 0 $'KCT 1 3 s\nACG 3\nCGT 1\nGTA 1\nEND 3 5\n' '' '' kcount filter merged.kct
wants 0 "$nothing" '' '' kcount filter -L 3 -U 2 merged.kct
# the strands and the length have to be those of all tables, and other options need not
printf '%s' "${acg/3 s/3 c}" > canonical.kct
printf '%s' "${acg/ a 33/ o 35}" > listed.kct
for command in merge intersect subtract; do
    fault 1 '61: tables do not match' '' kcount "$command" one.kct acg.kct canonical.kct
    fault 1 '61: tables do not match' '' kcount "$command" canonical.kct one.kct
    fault 1 '41: bad header' '' kcount "$command" one.kct canonical.kct reads.fa
    fault 1 '45: table read failed' '' kcount "$command" one.kct a-directory reads.fa
    fault 1 '54: cannot open missing' '' kcount "$command" reads.fa one.kct missing
done
wants 0 "$shared" '' '' kcount intersect one.kct listed.kct
wants 0 "$nothing" '' '' kcount subtract listed.kct one.kct
fault 1 '61: tables do not match' '' kcount merge one.kct listed.kct
# a count or a total above 2^62 is refused
printf '%s' "$most" > most.kct
fault 1 '62: sums too large' '' kcount merge most.kct acg.kct acg.kct
fault 1 '62: sums too large' '' kcount intersect --take sum most.kct acg.kct
fault 2 '51: bad option --take' '' kcount intersect --take least one.kct acg.kct
fault 2 '51: bad option --take' '' kcount intersect --take '' missing missing
fault 2 '51: bad option --lower-count' '' kcount filter -U x -L y missing

# A table of reads is compared with one of an assembly: numbers of k-mers, and the spectrum of copy numbers.
numbers() {
    printf 'Reads_distinct:         %s\nAssembly_distinct:      %s\nShared_distinct:        %s\nAssembly_total:         %s\n' "${@:1:4}"
    printf 'Assembly_only_distinct: %s\nAssembly_only_total:    %s\nSolid_distinct:         %s\nSolid_shared:           %s\n.' "${@:5}"
}
compares() {
    local text=$1
    shift
    wants 0 "${text%.}" '' '' kcount compare "$@"
}
printf 'KCT 1 3 s\nACG 1\nCGA 1\nGAA 1\nEND 3 3\n' > assembly.kct
compares "$(numbers 3 3 1 3 2 2 1 1)" merged.kct assembly.kct
compares "$(numbers 3 3 1 3 2 2 3 1)" --solid 0 merged.kct assembly.kct
compares "$(numbers 3 3 1 3 2 2 1 1)" --solid 3 --high 1 merged.kct assembly.kct
compares "$(numbers 3 3 1 3 2 2 0 0)" --solid 4 merged.kct assembly.kct
compares "$(numbers 3 3 1 5 2 2 3 1)" --solid 1 assembly.kct merged.kct
compares "$(numbers 3 3 3 5 0 0 1 1)" merged.kct merged.kct
compares "$(numbers 0 3 0 5 3 5 0 0)" <(printf '%s' "$nothing") merged.kct
compares "$(numbers 3 0 0 0 0 0 1 0)" merged.kct <(printf '%s' "$nothing" | gzip)
compares $'0\t1\t2\n1\t0\t2\n1\t3\t1\n.' --matrix merged.kct assembly.kct
compares $'0\t1\t2\n1\t0\t2\n1\t3\t1\n.' --matrix merged.kct <(cat assembly.kct)
compares $'0\t1\t2\n1\t0\t2\n1\t2\t1\n.' --matrix --high 1 merged.kct assembly.kct
printf 'KCT 1 3 s\nAAA 4\nACG 5\nCCC 6\nCGT 1\nEND 4 16\n' > repeats.kct
compares $'0\t1\t1\n1\t1\t1\n4\t0\t1\n5\t0\t1\n5\t3\t1\n.' --matrix --high 3 merged.kct repeats.kct
for wrong in "canonical.kct merged.kct" "merged.kct canonical.kct"; do
    # shellcheck disable=SC2086
    fault 1 '61: tables do not match' '' kcount compare $wrong
done
fault 1 '41: bad header' '' kcount compare reads.fa canonical.kct
fault 1 '41: bad header' '' kcount compare --matrix merged.kct reads.fa
fault 1 '45: table read failed' '' kcount compare a-directory reads.fa
fault 1 '54: cannot open missing' '' kcount compare reads.fa missing
fault 2 '51: bad option --solid' '' kcount compare --solid 2.5 --high 0 missing missing
fault 2 '51: bad option --high' '' kcount compare --high 10000001 missing missing
# a dump of a pipe, and of a file that is compressed
wants 0 $'ACG 3\nCGT 1\nGTA 1\n' '' '' kcount dump -c <(cat merged.kct)
gzip -c merged.kct > merged.kct.gz
wants 0 $'ACG 3\n' '' '' kcount dump -c -L 2 merged.kct.gz

# A row takes one word of 64 bits, and a count that does not fit beside its word stands apart. Beside a word of 31 bases
# some counts of a thousand don't.
repeated() { printf "$1%.0s" $(seq "$2"); }
runs=$'>t\n'$(repeated T 1100)$'\n>c\n'$(repeated C 1053)$'\n>a\n'$(repeated A 60)$'\n>ta\n'$(repeated T 30)$'A\n'
dumped=$(repeated A 31)$' 30\n'$(repeated C 31)$' 1023\n'$(repeated T 30)$'A 1\n'$(repeated T 31)$' 1070\n'
for options in '--stripes 1' '--stripes 4 -t 3' '--stripes 64 -t 2 --batch 100'; do
    read -r -a asking <<< "$options"
    wants 0 "$dumped" '' "$runs" kcount count -m 31 --print dump --column "${asking[@]}"
done

# Tables of more rows than are packed together, a few of them with counts beyond 2^50.
rows_of() {
    awk -v times="$1" 'BEGIN {
        for (i = 0; i < 70000; i++) {
            word = ""
            for (n = i; length(word) < 9; n = int(n / 4)) word = substr("ACGT", n % 4 + 1, 1) word
            printf "%s %.0f\n", word, times * (i % 11003 == 0 ? 1125899906842625 + i : 1 + i % 5)
        }
    }'
}
table_of() {
    printf 'KCT 1 9 s\n'
    cat
    printf 'END 70000 %s\n' "$1"
}
total=$(rows_of 1 | awk '{ small += $2 < 100 ? $2 : 0; large += $2 < 100 ? 0 : $2 } END { printf "%.0f", small + large }')
rows_of 1 | table_of "$total" > many.kct
wants 0 "$(rows_of 1)"$'\n' '' '' kcount dump --column many.kct
wants 0 "$(rows_of 2 | table_of "$((2 * total))")"$'\n' '' '' kcount merge many.kct many.kct

# The reads that a table selects are written whole and in order, with their titles, FASTA as FASTA and FASTQ as FASTQ. In
# the table ACG and CGT occur twice, and GTA and TAC once.
selects() {
    local output=$1 input=$2
    shift 2
    wants 0 "$output" '' "$input" kcount select two.kct "$@"
}
some=$'>a one two\nACG\n>b\nAAA\n>c>c\nac\ngt\n'
selects $'>a one two\nACG\n>c>c\nacgt\n' "$some"
selects $'>b\nAAA\n' "$some" --invert
# by a greatest count: k-mers that occur twice are not solid, and with a least count of 0 those that never occur are
selects $'>b\nGTA\n' $'>a\nACG\n>b\nGTA\n>c\nAAA\n>d\nGTACG\n' --min-count 1 --max-count 1
selects $'>b\nGTA\n>c\nAAA\n' $'>a\nACG\n>b\nGTA\n>c\nAAA\n>d\nGTACG\n' --min-count 0 --max-count 1
selects $'>c\nAAA\n' $'>a\nACG\n>b\nGTA\n>c\nAAA\n>d\nGTACG\n' --min-count 0 --max-count 0
selects '' $'>a\nACG\n>b\nGTA\n>c\nAAA\n' --min-count 2 --max-count 1
selects "$reads" "$reads" --min-share 66
selects '' "$reads" --min-share 67
selects '' "$reads" --min-share 66 --invert
selects "$reads" "$reads" --min-share 67 --invert
selects $'@q x\nACGT\n+\n@I+I\n' $'\n@q x\r\nAC\nGT\n+q x\n@I\n+I\n'
selects $'@q\n\n+\n\n' $'@q\n\n+\n'
# a read without k-mers is kept, and none is where there are no reads
selects $'>s\nAC\n>t\n\n>u\nACNGT\n' $'>s\nAC\n>t\n>u\nACNGT\n'
selects '' $'>s\nAC\n' --invert
selects '' ''
# several files, of either format, and none of standard input beside them
printf '@q\nGTA\n+\nIII\n@p\nCGT\n+\nIII\n' > reads.fq
printf '%s' "$some" > some.fa
selects $'>a one two\nACG\n>c>c\nacgt\n@p\nCGT\n+\nIII\n' '>r' some.fa reads.fq
selects $'@q\nGTA\n+\nIII\n>b\nAAA\n' '>r' --invert reads.fq some.fa
selects $'@p\nCGT\n+\nIII\n' "$reads" reads.fq reads.fa
# the counts are told on the errors where they are asked for, and where there is no fault: reads, those that are kept,
# k-mers and those that are solid
tells() {
    local counts=$1 output=$2 input=$3
    shift 3
    wants 0 "$output" "kcount: $counts"$'\n' "$input" kcount select --stats two.kct "$@"
}
tells '0 reads, 0 kept, 0 k-mers, 0 solid' '' ''
tells '3 reads, 2 kept, 4 k-mers, 3 solid' $'>a one two\nACG\n>c>c\nacgt\n' "$some"
tells '3 reads, 1 kept, 4 k-mers, 3 solid' $'>b\nAAA\n' "$some" --invert
tells '1 reads, 0 kept, 3 k-mers, 2 solid' '' "$reads"
tells '3 reads, 1 kept, 5 k-mers, 3 solid' $'@p\nCGT\n+\nIII\n' '>r' reads.fq reads.fa
wants 1 '' $'kcount: 1: bad start, source 1, line 1\n' 'ACG' kcount select --stats two.kct
# those before a fault are written
written_before() {
    local line=$1 output=$2 input=$3
    shift 3
    wants 1 "$output" "kcount: $line"$'\n' "$input" kcount select two.kct "$@"
}
written_before '2: bad base, source 1, line 4' $'>a\nACG\n' $'>a\nACG\n>b\nA@C\n>c\nACG\n'
written_before '5: truncated, source 1, line 8' $'@p\nCGT\n+\nIII\n' $'@p\nCGT\n+\nIII\n@q\nACG\n+\nII'
written_before '1: bad start, source 1, line 1' '' $'ACG\n'
printf '>r\nACG\n>s\nA@C\n' > bad.fa
written_before '2: bad base, source 2, line 4' $'@p\nCGT\n+\nIII\n>r\nACG\n' '' reads.fq bad.fa a-directory
written_before '7: read failed, source 2' $'@p\nCGT\n+\nIII\n' '' reads.fq a-directory bad.fa
wants 1 '' $'kcount: 2: bad base, source 1, line 4\n' '' kcount select -o out two.kct bad.fa
same "the file out" '' out "a selection with a fault"
# Pairs: both reads of the first pair are solid, one of the second, and none of the third. Those that are written are
# written whole, interleaved or to two files, and both reads of each are counted.
one_1=$'@a/1 x\nACG\n+\nIII\n' one_2=$'@a/2 y\nCGT\n+\nJJJ\n'
two_1=$'@b/1\nAAA\n+\nIII\n' two_2=$'@b/2\nACG\n+\nJJJ\n'
three_1=$'@c/1\nTTT\n+\nIII\n' three_2=$'@c/2\nAAA\n+\nJJJ\n'
printf '%s' "$one_1$two_1$three_1" > first.fq
printf '%s' "$one_2$two_2$three_2" > second.fq
pairs() {
    local first=$1 second=$2 interleaved=$3 counts=$4
    shift 4
    wants 0 "$interleaved" '' '>r' kcount select --pairs two.kct first.fq second.fq "$@"
    wants 0 "$interleaved" "kcount: 6 reads, $counts kept, 6 k-mers, 3 solid"$'\n' '>r' kcount select --pairs --stats two.kct first.fq second.fq "$@"
    wants 0 '' '' '>r' kcount select --pairs two.kct first.fq second.fq "$@" -o first.out --output2 second.out
    same "the file first.out" "$first" first.out "pairs $*"
    same "the file second.out" "$second" second.out "pairs $*"
}
pairs "$one_1" "$one_2" "$one_1$one_2" 2
pairs "$one_1" "$one_2" "$one_1$one_2" 2 --keep both
pairs "$one_1$two_1" "$one_2$two_2" "$one_1$one_2$two_1$two_2" 4 --keep any
pairs "$two_1$three_1" "$two_2$three_2" "$two_1$two_2$three_1$three_2" 4 --invert
pairs "$three_1" "$three_2" "$three_1$three_2" 2 --keep=any --invert
pairs '' '' '' 0 --keep=any --invert --min-share 0
# a file may be compressed, or of another format, and both may be named as the outputs
gzip -c second.fq > second.fq.gz
wants 0 "$one_1$one_2" '' '' kcount select --pairs two.kct first.fq second.fq.gz
wants 0 $'>a\nACG\n@a/2 y\nCGT\n+\nJJJ\n' '' '' kcount select --pairs two.kct <(printf '>a\nACG\n') <(printf '%s' "$one_2")
cp first.fq first.out
cp second.fq second.out
wants 0 '' '' '' kcount select --pairs -o first.out --output2 second.out two.kct first.out second.out
same "the file first.out" "$one_1" first.out "pairs in place"
same "the file second.out" "$one_2" second.out "pairs in place"
# the names of mates: equal, or with the numbers of mates at their ends
mates() {
    local status=$1 errors=$2 first=$3 second=$4
    printf '>%s\nACG\n' "$first" > first.fa
    printf '>%s\nACG\n' "$second" > second.fa
    [ "$status" != 0 ] || wants 0 $'>'"$first"$'\nACG\n>'"$second"$'\nACG\n' '' '' kcount select --pairs two.kct first.fa second.fa
    [ "$status" = 0 ] || wants 1 '' "$errors" '' kcount select --pairs two.kct first.fa second.fa
}
unpaired=$'kcount: 81: reads are no pair, record '
for names in 'a a' 'a/1 a/2' 'a.1 a.2' 'a.7 a.7'; do
    mates 0 '' "${names% *}" "${names#* }"
    mates 0 '' "${names% *} 1:N:0" "${names#* } 2:N:0"
    mates 0 '' "${names% *}"$'\tx' "${names#* } y"
done
for names in 'a b' 'a/2 a/1' 'a/1 a/1' 'a A' 'a/1 b/2' 'a:1 a:2'; do mates 1 "$unpaired"$'1\n' "${names% *}" "${names#* }"; done
# Records that are no pair, and a file that has more of them: the pairs before are written to the output, and files are
# as they were. A fault of FIRST comes before one of SECOND, and either before this one, at the same record.
unpairs() {
    local output=$1 errors=$2 first=$3 second=$4
    printf '%s' "$first" > first.fa
    printf '%s' "$second" > second.fa
    wants 1 "$output" "kcount: $errors"$'\n' '' kcount select --pairs two.kct first.fa second.fa
    printf 'old 1\n' > first.out
    printf 'old 2\n' > second.out
    wants 1 '' "kcount: $errors"$'\n' '' kcount select --pairs -o first.out --output2 second.out two.kct first.fa second.fa
    same "the file first.out" $'old 1\n' first.out "pairs with a fault"
    same "the file second.out" $'old 2\n' second.out "pairs with a fault"
}
pair=$'>a\nACG\n'
unpairs "$pair$pair" '81: reads are no pair, record 2' "$pair"$'>b\nACG\n' "$pair"$'>c\nACG\n'
unpairs "$pair$pair" '81: reads are no pair, record 2' "$pair$pair" "$pair"
unpairs "$pair$pair" '81: reads are no pair, record 2' "$pair" "$pair$pair"
unpairs '' '81: reads are no pair, record 1' '' "$pair"
unpairs '' '81: reads are no pair, record 1' "$pair" ''
unpairs "$pair$pair" '2: bad base, source 1, line 4' "$pair"$'>b\nA@G\n' "$pair"$'>c\nA@G\n'
unpairs "$pair$pair" '2: bad base, source 2, line 4' "$pair"$'>b\nACG\n' "$pair"$'>c\nA@G\n'
unpairs "$pair$pair" '2: bad base, source 2, line 4' "$pair" "$pair"$'>c\nA@G\n'
unpairs "$pair$pair" '81: reads are no pair, record 2' "$pair"$'>b\nACG\n>d\nA@G\n' "$pair"$'>c\nACG\n'
wants 1 '' $'kcount: 7: read failed, source 1\n' '' kcount select --pairs two.kct a-directory a-directory
wants 1 '' $'kcount: 7: read failed, source 2\n' '' kcount select --pairs two.kct first.fq a-directory
wants 1 '' $'kcount: 54: cannot open missing\n' '' kcount select --pairs two.kct first.fq missing
wants 2 '' $'kcount: 51: bad option --keep\n' '' kcount select --pairs --keep one two.kct first.fq missing
wants 1 '' $'kcount: 53: write failed\n' '' into_a_full_device select --pairs two.kct first.fq second.fq
# The counts along each record, in runs: positions from 0, an end that is not included, and no line over a letter that is
# no base. In the table ACG and CGT occur twice, and GTA and TAC once.
profiles() {
    local output=$1 input=$2
    shift 2
    wants 0 "$output" '' "$input" kcount profile two.kct "$@"
}
profiles "$profile" "$reads"
profiles '' ''
profiles $'a\t0\t1\t2\nb\t0\t1\t0\nc>c\t0\t2\t2\n' "$some"
profiles $'r\t0\t1\t2\nr\t4\t5\t2\n' $'>r one two\nACGNACG\n'
profiles $'r\t0\t1\t2\nr\t4\t5\t2\n' $'>r\tone two\nACG\nNAC\nG\n'
profiles $'r\t0\t1\t1\nr\t1\t3\t2\nr\t3\t4\t1\n' $'>r\nTACGTA\n'
profiles $'\t0\t1\t2\n' $'>s\nAC\n>t\n>\nACG\n'
profiles $'q\t0\t1\t1\np\t0\t1\t2\nr1\t0\t2\t2\nr1\t2\t3\t1\n' '>r' reads.fq reads.fa
wants 0 '' '' '' kcount profile -o out two.kct reads.fa
same "the file out" "$profile" out "a profile"
: > out
# those before a fault are written, but not to a file of -o
wants 1 $'a\t0\t1\t2\n' $'kcount: 2: bad base, source 1, line 4\n' $'>a\nACG\n>b\nA@C\n>c\nACG\n' kcount profile two.kct
wants 1 $'q\t0\t1\t1\np\t0\t1\t2\n' $'kcount: 7: read failed, source 2\n' '' kcount profile two.kct reads.fq a-directory
wants 1 '' $'kcount: 2: bad base, source 1, line 4\n' '' kcount profile -o out two.kct bad.fa
same "the file out" '' out "a profile with a fault"
fault 2 '51: bad option --min-qual-char' "$reads" kcount profile --min-qual-char= missing
# A table of thousands of rows: a record of 20,000 bases by its first half, whose words are counted here.
random_bases() {
    awk 'BEGIN { for (x = 1; i < 20000; i++) { x = x * 16807 % 2147483647; printf "%s", substr("ACGT", int(x / 7) % 4 + 1, 1) } }'
}
profile_of_bases() {
    awk -v k=7 '{
        for (i = 1; i + k - 1 <= 10000; i++) count[substr($0, i, k)]++
        for (i = 1; i + k - 1 <= length($0); i++) {
            now = count[substr($0, i, k)] + 0
            if (i > 1 && now != run) { print "r\t" start "\t" i - 1 "\t" run; start = i - 1 }
            if (i == 1) start = 0
            run = now
        }
        print "r\t" start "\t" i - 1 "\t" run
    }'
}
bases=$(random_bases)
wants 0 '' '' ">half"$'\n'"${bases:0:10000}" kcount count -m 7 -o many.kct
wants 0 "$(profile_of_bases <<< "$bases")"$'\n' '' '>r'$'\n'"$bases" kcount profile many.kct
wants 0 ">half"$'\n'"${bases:0:10000}"$'\n' '' ">half"$'\n'"${bases:0:10000}"$'\n'">r"$'\n'"$bases" kcount select --min-count 1 --min-share 100 many.kct
# Along the reads of the examples, position by position, the counts are those of Jellyfish: this is the check sum of the
# 20,640 that `jellyfish query -s` (2.3.0) prints with its table of the same reads.
counts_along() {
    "$program" profile along.kct "$1" | awk '{ for (i = $2; i < $3; i++) print $4 }' | cksum
}
wants 0 '' '' '' kcount count -m 15 -C -o along.kct "$here/../examples/shotgun.fq"
wants 0 $'1442221981 60255\n' '' '' counts_along "$here/../examples/shotgun.fq"
# no option stands for several of its values
fault 2 '51: bad option --min-count' "$reads" kcount select --min-share 101 --min-count x missing
fault 2 '51: bad option --max-count' "$reads" kcount select --min-share 101 --max-count x missing
fault 2 '51: bad option --min-share' "$reads" kcount select --min-qual-char 10 --min-share 1k missing
fault 2 '51: bad option --min-qual-char' "$reads" kcount select --min-qual-char= missing

# Each worker has a thread. Where one is refused, the fault names its worker; one more than there are workers would be
# no worker's. Where several are refused, it names the first of them.
for threads in 1 2 3 4 64; do
    many=(count -m 3 --stripes 64 -t "$threads")
    fault 1 "33: no thread for worker $((threads - 1))" "$reads" without_thread "$threads" "${many[@]}"
    wants 0 "$one" '' "$reads" without_thread $((threads + 1)) "${many[@]}"
done
for refused in 1 2 3; do
    fault 1 "33: no thread for worker $((refused - 1))" "$reads" without_thread "$refused" count -m 3 -t 3
done
fault 1 '33: no thread for worker 0' "$reads" without_thread '1 3' count -m 3 --threads=3
fault 1 '33: no thread for worker 1' "$reads" without_thread '2 3' count -m 3 --threads=3
fault 1 '33: no thread for worker 1' "$reads" without_thread '3 2' count -m 3 --threads=4
fault 1 '33: no thread for worker 0' "$reads" without_thread 1 count -m 3
wants 0 "$one" '' "$reads" without_thread 2 count -m 3
# How many threads a count starts: without -t as many as with -t 1, and with -t 4 at least three more.
started() {
    : > "$work/started"
    THREADS=$work/started LD_PRELOAD=$work/watch.so "$program" count -m 3 --stripes 64 "$@" < reads.fa > "$work/output"
    wc -l < "$work/started"
}
usually=$(started)
single=$(started -t 1)
four=$(started -t 4)
[ "$usually" = "$single" ] || fails "a count starts $usually threads, and with -t 1 $single"
[ "$single" -ge 1 ] || fails "a count with -t 1 starts no thread"
[ $((four - single)) -ge 3 ] || fails "a count with -t 1 starts $single threads, and with -t 4 $four"

# A value outside its limits is refused before a file is looked for, the first in the order of the help.
fault 2 '51: bad option --lower-count' "$table" kcount dump -U x -L x missing
fault 2 '51: bad option --upper-count' "$table" kcount dump -L 2 -U 2k missing
fault 2 '51: bad option --high' "$table" kcount histo --high= missing

# What can't be opened is named. No name stands for standard input.
long=$(letters a 200)
for name in - "$long" 'a b' 'é'; do
    fault 1 "54: cannot open $name" "$reads" kcount count -m 3 "$name"
    fault 1 "54: cannot open $name" "$table" kcount dump "$name"
    fault 1 "54: cannot open $name" "$table" kcount histo "$name"
    fault 1 "54: cannot open $name" "$table" kcount stats "$name"
    fault 1 "54: cannot open $name" "$table" kcount query "$name" ACG
    fault 1 "54: cannot open $name" "$reads" kcount count -m 3 --only "$name"
    fault 1 "54: cannot open $name" "$table" kcount merge "$name" two.kct
    fault 1 "54: cannot open $name" "$table" kcount merge two.kct "$name"
    fault 1 "54: cannot open $name" "$table" kcount subtract two.kct two.kct "$name"
    fault 1 "54: cannot open $name" "$table" kcount filter "$name"
    fault 1 "54: cannot open $name" "$reads" kcount select "$name"
    fault 1 "54: cannot open $name" "$reads" kcount select two.kct reads.fa "$name"
    fault 1 "54: cannot open $name" "$reads" kcount profile "$name"
    fault 1 "54: cannot open $name" "$reads" kcount profile two.kct reads.fa "$name"
    fault 1 "54: cannot open no-such/$name" "$table" kcount stats -o "no-such/$name"
done
cp two.kct ./-
wants 0 "$stats" '' "$one" kcount stats -

# What can't be read, or is too large for the memory there is.
fault 1 '7: read failed, source 1' '' of_a_directory count -m 3
fault 1 '45: table read failed' '' of_a_directory dump
fault 1 '45: table read failed' '' kcount merge a-directory reads.fa
fault 1 '45: table read failed' '' kcount merge two.kct a-directory
fault 1 '45: table read failed' "$reads" kcount select a-directory
fault 1 '7: read failed, source 1' '' of_a_directory select two.kct
fault 1 '45: table read failed' "$reads" kcount profile a-directory
truncate -s 1T large
fault 1 '8: no memory' '' in_little_memory count -m 3 large
fault 1 '8: no memory' "$reads" in_little_memory count -m 3 --only large
fault 1 '46: no memory' '' in_little_memory stats large
fault 1 '46: no memory' '' in_little_memory merge large two.kct
fault 1 '46: no memory' '' in_little_memory merge two.kct large
fault 1 '46: no memory' "$reads" in_little_memory select large
fault 1 '8: no memory' '' in_little_memory select two.kct large
fault 1 '46: no memory' "$reads" in_little_memory count -m 31 -s 1000G

# A table may be gzip for each command that reads one, of several members too, and broken gzip is refused.
gzip -c two.kct > two.kct.gz
{ head -n 2 two.kct | gzip -c; tail -n +3 two.kct | gzip -c; } > members.kct.gz
head -c 30 two.kct.gz > cut.kct.gz
{ cat two.kct.gz; echo; } > more.kct.gz
for gzipped in two.kct.gz members.kct.gz; do
    wants 0 "$dump" '' '' kcount dump "$gzipped"
    wants 0 "$histo" '' '' kcount histo "$gzipped"
    wants 0 "$stats" '' '' of_a_file "$gzipped" stats
    wants 0 $'ACG 2\n' '' '' kcount query "$gzipped" ACG
    wants 0 $'KCT 2 3 c a 33 2\nACG 4\nGTA 2\nEND 2 6\n' '' '' kcount merge two.kct "$gzipped"
    wants 0 "$reads" '' "$reads" kcount select --min-count 1 "$gzipped"
    wants 0 "$profile" '' "$reads" kcount profile "$gzipped"
done
refused_gzip() {
    local line=$1 name=$2 command
    for command in dump histo stats; do
        fault 1 "$line, source 1" '' kcount "$command" "$name"
    done
    fault 1 "$line, source 1" '' kcount query "$name" N
    fault 1 "$line, source 1" '' kcount merge "$name" a-directory
    fault 1 "$line, source 2" '' kcount merge two.kct "$name"
    fault 1 "$line, source 1" '' kcount select "$name" a-directory
    fault 1 "$line, source 1" '' kcount profile "$name" a-directory
}
refused_gzip '71: broken gzip' more.kct.gz
refused_gzip '72: gzip cut short' cut.kct.gz

# A text that is no table is refused by each command that reads one, also in a file, and before a bad word.
no_table() {
    local line=$1 text=$2 command
    printf '%s' "$text" > no.kct
    for command in dump histo stats; do
        fault 1 "$line" "$text" kcount "$command"
        fault 1 "$line" "$table" kcount "$command" no.kct
    done
    fault 1 "$line" "$table" kcount query no.kct N
    fault 1 "$line" '' kcount merge no.kct a-directory
    fault 1 "$line" '' kcount merge two.kct no.kct
    fault 1 "$line" '' kcount intersect two.kct two.kct no.kct
    fault 1 "$line" '' kcount filter no.kct
    fault 1 "$line" '' kcount select no.kct a-directory
    fault 1 "$line" '' kcount profile no.kct a-directory
}
no_table '41: bad header' ''
no_table '41: bad header' $'KCT 2 3 s\nEND 0 0\n'
no_table '41: bad header' $'KCT 2 3 s a 32 1\nEND 0 0\n'
no_table '41: bad header' $'KCT 2 3 s x 33 1\nEND 0 0\n'
no_table '41: bad header' $'KCT 2 3 s a 33 01\nEND 0 0\n'
no_table '41: bad header' $'KCT 2 3 s a 33 4611686018427387905\nEND 0 0\n'
no_table '41: bad header' $'KCT 2 32 s a 33 0\nEND 0 0\n'
no_table '41: bad header' $'KCT 3 3 s\nEND 0 0\n'
no_table '41: bad header' $'KCT 1 32 s\nEND 0 0\n'
no_table '41: bad header' 'KCT 1 3 s'
no_table '42: bad row, line 2' $'KCT 1 3 c\nCGT 1\nEND 1 1\n'
no_table '42: bad row, line 3' $'KCT 1 3 s\nACG 1\nACG 1\nEND 2 2\n'
no_table '42: bad row, line 4' $'KCT 1 3 s\nACG 1\nCGT 1\n\nEND 2 2\n'
no_table '42: bad row, line 2' $'KCT 2 3 c a 33 1\nCGT 1\nEND 1 1\n'
no_table '43: bad end' $'KCT 2 3 s a 33 1\n'
no_table '43: bad end' $'KCT 2 3 s o 126 4\nACG 1\nEND 1 2\n'
no_table '43: bad end' $'KCT 1 3 s\nACG 1\n'
no_table '43: bad end' $'KCT 1 3 s\nACG 1\nEND 1 1'
no_table '43: bad end' $'KCT 1 3 s\nACG 1\nEND 1 2\n'
no_table '43: bad end' $'KCT 1 3 s\nACG 1\nEND 1 1\n\n'

# The first bad word of a query is told by its place.
fault 1 '52: bad word 1' '' kcount query two.kct ACGT
fault 1 '52: bad word 2' '' kcount query two.kct ACG ACN AC
fault 1 '52: bad word 3' '' kcount query two.kct ACG gta ''
fault 1 '52: bad word 101' '' kcount query two.kct "${words[@]}" 'A G'
# The words of a list follow those of the command line.
bad_list() {
    printf '%s' "$2" > list
    fault 1 "52: bad word $1" '' kcount query --file list two.kct ACG gta
}
bad_list 3 $'AC\nACG\n'
bad_list 4 $'ACG\r\n\nACGT\nAC\n'
bad_list 4 $'ACG\nA\xffC\n'
bad_list 3 $' ACG\n'
bad_list 5 $'ACG\nACG\nACG\r\r\n'
# The list is read before the table, and the table before words are judged.
fault 1 '45: table read failed' '' kcount query --file a-directory no.kct N
fault 1 '43: bad end' '' kcount query --file list no.kct N
head -c 20 words.gz > cut.gz
{ cat words.gz; echo; } > more.gz
fault 1 '72: gzip cut short, source 0' '' kcount query --file cut.gz no.kct N
fault 1 '71: broken gzip, source 0' '' kcount query --file more.gz no.kct N

# An output that takes nothing is told, and errors that take nothing change no status.
if [ -c /dev/full ]; then
    for report in table dump histo stats; do
        fault 1 '53: write failed' "$reads" into_a_full_device count -m 3 --print "$report"
    done
    for command in dump histo stats 'query two.kct ACG' 'merge two.kct two.kct' --help 'help count' --version; do
        # shellcheck disable=SC2086
        fault 1 '53: write failed' "$table" into_a_full_device $command
    done
    fault 1 '53: write failed' "$reads" into_a_full_device select --stats --min-count 1 two.kct
    fault 1 '53: write failed' "$reads" into_a_full_device profile two.kct
    wants 0 "$reads" '' "$reads" with_full_errors select --stats --min-count 1 two.kct
    wants 0 "$one" '' "$reads" with_full_errors count -m 3
    wants 1 '' '' '>' with_full_errors stats
    wants 2 '' '' '' with_full_errors count -m 32
    wants 2 '' '' '' with_full_errors frob
    wants 1 '' '' "$reads" with_both_full count -m 3
else
    echo "program: an output that takes nothing was not tried, since there is no /dev/full"
fi
wants 0 "$one" '' "$reads" with_closed_errors count -m 3
wants 0 "$reads" '' "$reads" with_closed_errors select --stats --min-count 1 two.kct
wants 1 '' '' '>' with_closed_errors stats
wants 2 '' '' '' with_closed_errors count -m 32
wants 2 '' '' '' with_closed_errors frob
# (a file that is opened while there are no errors doesn't get the line)
wants 1 '' '' 'ACGT' with_closed_errors count -m 3 -o out
same "the file out" '' out "a fault without errors"

# The reads of an example are divided before each of them, and behind the last, into two files, which are counted apart:
# the sum of their tables is the table of the whole.
examples=$here/../examples
asked() { "$program" count -m "$length" -s 4k "${asking[@]}" "$@"; }
halves() {
    local file=$1 start
    asked "$file" > whole.kct
    for start in "${starts[@]}"; do
        head -n $((start - 1)) "$file" > first.part
        tail -n "+$start" "$file" > second.part
        asked first.part > first.kct
        asked second.part > second.kct
        "$program" merge first.kct second.kct > sum.kct
        cmp -s whole.kct sum.kct \
            || fails "the parts of $file before line $start, counted with ${asking[*]}, are not the whole"
        ran=$((ran + 1))
    done
}
# Three parts of its reads, from these lines on, give the same bytes in each order, whichever two are put together
# first.
thirds() {
    local file=$1 second=$2 third=$3 order part sum
    asked "$file" > whole.kct
    asked <(head -n $((second - 1)) "$file") > 1.kct
    asked <(sed -n "$second,$((third - 1))p" "$file") > 2.kct
    asked <(tail -n "+$third" "$file") > 3.kct
    for order in '1 2 3' '1 3 2' '2 1 3' '2 3 1' '3 1 2' '3 2 1'; do
        read -r -a part <<< "$order"
        "$program" merge "${part[0]}.kct" "${part[1]}.kct" -o two-parts.kct
        "$program" merge two-parts.kct "${part[2]}.kct" > left.kct
        "$program" merge "${part[2]}.kct" two-parts.kct > right.kct
        for sum in left.kct right.kct; do
            cmp -s whole.kct "$sum" || fails "the parts $order of $file, counted with ${asking[*]}, are not the whole"
        done
        ran=$((ran + 1))
    done
}
for options in '' -C '--min-qual-char +' '-C --min-qual-char +'; do
    read -r -a asking <<< "$options"
    length=4
    mapfile -t starts < <({ cat "$examples/reads.fa"; echo '>'; } | grep -n '^>' | cut -d : -f 1)
    halves "$examples/reads.fa"
    thirds "$examples/reads.fa" 1 4
    length=15
    mapfile -t starts < <(seq 1 4 $(($(wc -l < "$examples/shotgun.fq") + 1)))
    halves "$examples/shotgun.fq"
    thirds "$examples/shotgun.fq" 333 $((4 * 200 + 1))
done
echo "program: $ran command lines wrote and ended as they should; the help tells the program's ranges and defaults"
