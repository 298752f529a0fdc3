#!/bin/bash
# Compares the completions and the man page with the program's own help:
#   tests/options.sh
# The completions in share/ have to be those that tools/completions.py writes. Command by command they have the options
# of the help and no others; that for bash is run, also for values. The man page has the same commands and options, each
# option with the same value, range and default (man_options.py), and the program's version. It needs bin/kcount.
set -euo pipefail
here=$(cd "$(dirname "$0")" && pwd)
kcount=$here/../bin/kcount
share=$here/../share
[ -x "$kcount" ] || { echo "no bin/kcount: run make build first"; exit 1; }
work=$(mktemp -d)
trap 'rm -rf "$work"' EXIT

same() {
    [ "$2" = "$3" ] || { printf 'options: %s are not those that are wanted:\n' "$1"; diff <(echo "$3") <(echo "$2"); exit 1; }
}

# the completions are those of the help
"$here/../tools/completions.py" "$work"
diff -ru -x kcount.1 "$share" "$work" || {
    echo "options: the completions in share/ are not those of the help: run make completions"
    exit 1
}

# A list of options, each `-s, --long` or `--long` in a line, in order.
in_order() {
    sed -E "s/^(-[A-Za-z])[^-]*(--.*)/\1, \2/" | LC_ALL=C sort
}
of_help() {
    "$kcount" "$1" --help | grep -oE '^ +(-[A-Za-z], )?--[a-z0-9-]+' | sed 's/^ *//' | in_order
}
# What bash offers for the last of these words.
offered() {
    # shellcheck disable=SC1091,SC2034
    (
        source "$share/kcount.bash"
        COMP_WORDS=(kcount "$@") COMP_CWORD=$#
        _kcount
        printf '%s\n' "${COMPREPLY[@]}"
    )
}
of_bash() {
    offered "$1" - | awk '/^--/ { print short $0; short = ""; next } { short = $0 " " }' | in_order
}
of_zsh() {
    sed -n "/^        $1)/,/;;$/p" "$share/_kcount" | grep -oE "\{-[A-Za-z]\+?,--[a-z0-9-]+|^ +'--[a-z0-9-]+" | tr -d "{+' " | in_order
}
of_fish() {
    grep -F "'__fish_kcount_command $1'" "$share/kcount.fish" \
        | grep -oE '(-s [A-Za-z] )?-l [a-z0-9-]+' | sed -E 's/-s ([A-Za-z]) /-\1 /; s/-l /--/' | in_order
}
commands() {
    "$kcount" --help | awk '/^Commands:/ { inside = 1; next } /^$/ { inside = 0 } inside { print $1 }' | LC_ALL=C sort
}
names=$(commands)
for command in $names; do
    [ "$command" != help ] || continue
    wanted=$(of_help "$command")
    [ -n "$wanted" ] || { echo "options: no option in the help of $command"; exit 1; }
    for place in bash zsh fish; do
        same "the options of $command for $place" "$("of_$place" "$command")" "$wanted"
    done
done

# the names of the commands
same 'the commands for bash' "$(offered '' | grep -v '^-' | LC_ALL=C sort)" "$names"
same 'the commands after help for bash' "$(offered help '' | LC_ALL=C sort)" "$names"
same 'the commands for zsh' "$(sed -n "/^    commands=(/,/^    )/s/^ *'\([a-z]*\):.*/\1/p" "$share/_kcount" | LC_ALL=C sort)" "$names"
same 'the commands for fish' "$(sed -n 's/.*__fish_kcount_command -f -a \([a-z]*\) .*/\1/p' "$share/kcount.fish" | LC_ALL=C sort)" "$names"
same 'the commands in the man page' "$({ echo help; sed -n 's/^\.B kcount \([a-z]*\).*/\1/p' "$share/kcount.1"; } | LC_ALL=C sort -u)" "$names"

# the values of options: of a list, files, or none (bash has the = of --option=value as a word)
values() {
    same "the values after ${*:2} for bash" "$(offered "${@:2}" | paste -sd ' ')" "$1"
}
mkdir "$work/here"
touch "$work/here/reads.fa" "$work/here/-x"
cd "$work/here"
values 'table dump histo stats' count --print ''
values 'table dump histo stats' count --print =
values 'dump' count --print = d
values '1 2 4 8 16 32 64' count --stripes ''
values 'both any' select --keep ''
values 'reads.fa' count -o r
values '-x' count --only -
values 'reads.fa' select --output2 = r
values '' count -t ''
values 'reads.fa' dump -t r
values '' select --min-share =

# the options of the man page
"$here/man_options.py"

# no line of help is wider than a terminal
for command in '' $names; do
    [ "$command" != help ] || continue
    # shellcheck disable=SC2086
    wide=$("$kcount" $command --help | awk 'length > 80')
    [ -z "$wide" ] || { printf 'options: wider than 80 columns: %s\n' "$wide"; exit 1; }
done

# the version
version=$("$kcount" --version)
[ "$(sed -n 's/^\.TH KCOUNT 1 "" "\([^"]*\)".*/\1/p' "$share/kcount.1")" = "$version" ] || { echo "options: the man page isn't of $version"; exit 1; }

echo "options: the man page and three completions have those of the help of $(echo "$names" | wc -l) commands"
