# What the benchmarks share. A script sources it, names its two programs by `rattle_program` and `c_program`, and is then its
# measuring loop: `in_turn` runs both, and `row` and `ratio` print lines of the tables of docs/BENCHMARKS.md.
#
# A program prints lines `KEY NANOSECONDS CHECK..`. What stands behind the time has to be the same in every run and in both
# programs; of the times the least is kept.
#   ROUNDS      how often each is run (3)
#   CC          the C compiler (cc)
#   BENCH_WORK  a folder to work in, where crates that are proved there stay so; else a new one, removed at the end
set -euo pipefail
export LC_ALL=C
bench=$(cd "$(dirname "${BASH_SOURCE[0]}")" && pwd)
top=$(dirname "$bench")
rounds=${ROUNDS:-3}
script=bench/$(basename "$0")
if [ -n "${BENCH_WORK:-}" ]; then
    work=$BENCH_WORK
else
    work=$(mktemp -d)
    trap 'rm -rf "$work"' EXIT
fi

fail() {
    echo "$script: $*" >&2
    exit 1
}

# what a crate stands on, as crates.txt has it
dependencies_of() {
    sed -n "s/^$1\( [^:]*\)\{0,1\}://p" "$top/crates.txt"
}

# Lays out a scratch repository with these crates and all that they stand on, without what was built of them.
lay_out() {
    local crate part
    mkdir -p "$work/crates"
    [ -e "$work/HANDLES" ] || cp "$top/HANDLES" "$work/"
    for crate in "$@"; do
        # other names are the toolchain's crates, or stand there already
        [ -d "$top/crates/$crate" ] && [ ! -d "$work/crates/$crate" ] || continue
        mkdir "$work/crates/$crate"
        # shellcheck disable=SC2046
        lay_out $(dependencies_of "$crate")
        for part in src specs proofs; do
            [ ! -d "$top/crates/$crate/$part" ] || cp -r "$top/crates/$crate/$part" "$work/crates/$crate/"
        done
        grep "^$crate[ :]" "$top/crates.txt" >> "$work/crates.txt"
    done
}

# rattle_program NAME DEP..: proves and builds the program of bench/NAME over these crates, and names it $rattle. Its sources
# end in `.in`, since `rt ci` wants every source of this repository in a listed crate.
rattle_program() {
    local name=$1 crate=$work/crates/$1_bench file
    shift
    lay_out "$@"
    if [ ! -d "$crate" ]; then
        mkdir -p "$crate/src"
        cp "$bench/$name/main.rt.in" "$crate/src/main.rt"
        [ ! -d "$bench/$name/proofs" ] || cp -r "$bench/$name/proofs" "$crate/"
        find "$crate" -name '*.in' | while read -r file; do mv "$file" "${file%.in}"; done
        echo "${name}_bench: $*" >> "$work/crates.txt"
    fi
    rattle=$crate/out/${name}_bench
    # built by a first run, without arguments, whose answer is not looked at
    (cd "$crate" && rt run) > "$work/$name.log" 2>&1 || [ -x "$rattle" ] || { tail -n 40 "$work/$name.log" >&2; fail "no program"; }
}

# c_program NAME: builds bench/c/NAME.c for this processor, and names it $plain.
c_program() {
    plain=$work/$1_plain
    "${CC:-cc}" -O3 -march=native -pthread -o "$plain" "$bench/c/$1.c"
}

# in_turn PREFIX ARGUMENT..: runs both programs with these arguments, one after the other, as often as asked. Their keys
# begin with the prefix.
in_turn() {
    local prefix=$1
    shift
    for _ in $(seq "$rounds"); do
        "$rattle" "$@" | sed "s/^/$prefix/" >> "$work/times.rattle"
        "$plain" "$@" | sed "s/^/$prefix/" >> "$work/times.plain"
    done
}

# the least time of a command in nanoseconds, as KEY of one side: time_of KEY rattle|plain COMMAND..
time_of() {
    local key=$1 side=$2 start
    shift 2
    for _ in $(seq "$rounds"); do
        start=$(date +%s%N)
        "$@" || fail "$* failed"
        echo "$key $(($(date +%s%N) - start))" >> "$work/times.$side"
    done
}

# whole_command GENOME_BASES: what the benchmarks of the whole command stand on: $kcount, which has to be built, /usr/bin/time, and $reads,
# seeded FASTQ of 100 bases, COVERAGE (20) over each base of a genome of so many bases, with ERRORS (10) wrong bases in a thousand.
whole_command() {
    kcount=$top/bin/kcount
    [ -x "$kcount" ] || fail "no bin/kcount: run make build first"
    command -v /usr/bin/time > "$work/which" || fail "no /usr/bin/time: apt-get install time"
    "${CC:-cc}" -O2 -o "$work/reads" "$bench/c/reads.c"
    reads=$work/reads.fq
    "$work/reads" "$1" "${COVERAGE:-20}" 100 "${ERRORS:-10}" 1 > "$reads"
}

# those of these tools that are installed, behind kcount
with_peers() {
    local peer
    printf kcount
    for peer in "$@"; do
        ! command -v "$peer" > "$work/which" || printf ' %s' "$peer"
    done
}

# prepared WHAT TOOL..: calls WHAT_TOOL of each tool, which is not measured.
prepared() {
    local what=$1 tool
    shift
    for tool in "$@"; do
        "${what}_$tool" > "$work/$tool.log" 2>&1 || fail "$tool failed: $(tail -n 3 "$work/$tool.log")"
    done
}

# in_rounds WHAT TOOL..: calls WHAT_TOOL of each tool, one after the other, as often as asked. They are functions of the script, which it
# exports. What a call takes is a line "WALL PROCESSOR PEAK" of $work/WHAT.TOOL, in seconds and KB.
in_rounds() {
    local what=$1 tool
    shift
    for tool in "$@"; do rm -f "$work/$what.$tool"; done
    for _ in $(seq "$rounds"); do
        for tool in "$@"; do
            /usr/bin/time -f '%e %U %S %M' -o "$work/time" bash -c "set -eo pipefail; ${what}_$tool" \
                > "$work/$tool.log" 2>&1 || fail "$tool failed: $(tail -n 3 "$work/$tool.log")"
            awk '{ print $1, $2 + $3, $4 }' "$work/time" >> "$work/$what.$tool"
        done
    done
}

# tool_row WHAT TOOL FIGURE TARGET: a line of the table: the least wall time of a tool with what that run took, and for another tool than
# kcount the ratio of kcount's wall time to it, and the target.
tool_row() {
    local ours wall processor peak
    ours=$(sort -n "$work/$1.kcount" | awk 'NR == 1 { print $1 }')
    read -r wall processor peak <<< "$(sort -n "$work/$1.$2" | head -n 1)"
    awk -v tool="$2" -v figure="$3" -v target="$4" -v ours="$ours" -v wall="$wall" -v processor="$processor" -v peak="$peak" 'BEGIN {
        ratio = sprintf("%.2f", ours / wall)
        if (tool == "kcount") ratio = target = ""
        printf "| %s | %s | %.2f s | %.2f s | %.0f MB | %s | %s |\n", tool, figure, wall, processor, peak / 1024, ratio, target }'
}

# row KEY WHAT UNIT [COUNT]: a line of the table, by the least time of both programs, over COUNT items. The unit is ms, us or
# ns, or MB of a number of KB. Where a side has no time of that key, nothing stands there.
row() {
    touch "$work/times.rattle" "$work/times.plain"
    awk -v key="$1" -v what="$2" -v unit="$3" -v count="${4:-1}" -v script="$script" '
        $1 == key {
            side = FILENAME ~ /rattle$/ ? 0 : 1
            time = $2; $1 = $2 = ""
            if (checked++ && $0 != check) { print script ": " key ": the programs found" check " and" $0 > "/dev/stderr"; wrong = 1; exit }
            check = $0
            if (!(side in least) || time < least[side]) least[side] = time
        }
        function shown(side,    scale) {
            if (!(side in least)) return ""
            scale = unit == "ms" ? 1e6 : unit == "us" || unit == "MB" ? 1e3 : 1
            time = least[side] / scale / count
            return sprintf(time < 100 ? "%.2f %s" : "%.0f %s", time, unit == "us" ? "µs" : unit)
        }
        END {
            if (wrong) exit 1
            ratio = 0 in least && 1 in least ? sprintf("%.2f", least[0] / least[1]) : ""
            printf "| `%s` | %s | %s | %s | %s |\n", script, what, shown(0), shown(1), ratio
        }' "$work/times.rattle" "$work/times.plain"
}

# ratio KEY BASE WHAT: a line of the table: on each side, the least time of KEY as a ratio to that of BASE.
ratio() {
    awk -v key="$1" -v base="$2" -v what="$3" -v script="$script" '
        { side = FILENAME ~ /rattle$/ ? 0 : 1 }
        !((side, $1) in least) || $2 < least[side, $1] { least[side, $1] = $2 }
        function shown(side) {
            return (side, key) in least && (side, base) in least ? sprintf("%.3f", least[side, key] / least[side, base]) : ""
        }
        END { printf "| `%s` | %s | %s | %s | |\n", script, what, shown(0), shown(1) }' "$work/times.rattle" "$work/times.plain"
}
