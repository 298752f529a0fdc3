#!/bin/bash
# Runs the examples of the documents as they are written, by the program as `make install` puts it, and compares what they
# print:
#   tests/examples.sh
# An example is a line that begins with "$ " in a block of README.md, docs/USING.md or docs/TUTORIAL.md; what it prints, to either stream,
# stands below it, up to the next one or the end of the block. All run one after the other in one directory, which has
# examples/ in it. A line that names a tool that isn't installed here is left out, and it is said so. A block that isn't
# closed, and a line that begins with "$ " and was not reached, fail the test.
set -euo pipefail
here=$(cd "$(dirname "$0")" && pwd)
top=$here/..
work=$(mktemp -d)
trap 'rm -rf "$work"' EXIT
[ -x "$top/bin/kcount" ] || { echo "no bin/kcount: run make build first"; exit 1; }
# (what was built is taken as it is: other tests run over the same libraries)
make --no-print-directory -C "$top" -o build install PREFIX="$work" > "$work/installed"
for file in bin/kcount share/man/man1/kcount.1 share/bash-completion/completions/kcount share/zsh/site-functions/_kcount \
    share/fish/vendor_completions.d/kcount.fish; do
    [ -s "$work/$file" ] || { echo "examples: make install left out $file"; exit 1; }
done
mkdir "$work/here"
cp -r "$top/examples" "$work/here/examples"
export PATH=$work/bin:$PATH
cd "$work/here"

# The examples of a document, a line each, and below each what it prints, marked by a bar.
examples_of() {
    awk '/^```/ { inside = !inside; shown = 0; next }
         inside && /^\$ / { print; shown = 1; next }
         inside && shown { print "|" $0 }' "$1"
}

ran=0
left_out=0
# Runs the example, and compares what it printed.
run_example() {
    local command=$1 wanted=$2 tool
    for tool in gnuplot gzip; do
        if [[ $command == *$tool* ]] && ! command -v $tool > "$work/which"; then
            echo "examples: $tool isn't installed, left out: $command"
            left_out=$((left_out + 1))
            return
        fi
    done
    bash -o pipefail -c "$command" > "$work/got" 2>&1 || true
    if ! printf '%s' "$wanted" | cmp -s - "$work/got"; then
        echo "examples: another answer in $document: $command"
        printf '%s' "$wanted" | diff - "$work/got" || true
        exit 1
    fi
    ran=$((ran + 1))
}

for document in README.md docs/USING.md docs/TUTORIAL.md; do
    fences=$(grep -c '^```' "$top/$document")
    [ $((fences % 2)) = 0 ] || { echo "examples: a block of $document isn't closed: it has $fences lines of \`\`\`"; exit 1; }
    before=$((ran + left_out))
    command=
    wanted=
    while IFS= read -r line; do
        if [ "${line:0:1}" = '|' ]; then
            wanted+="${line:1}"$'\n'
        else
            [ -z "$command" ] || run_example "$command" "$wanted"
            command=${line:2}
            wanted=
        fi
    done < <(examples_of "$top/$document")
    [ -z "$command" ] || run_example "$command" "$wanted"
    seen=$((ran + left_out - before))
    written=$(grep -c '^\$ ' "$top/$document")
    [ "$seen" = "$written" ] || { echo "examples: of the $written in $document $seen were reached"; exit 1; }
    [ "$seen" -gt 0 ] || { echo "examples: $document has none"; exit 1; }
done
echo "examples: $ran printed what the documents say, $left_out left out"
