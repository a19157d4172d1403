#!/usr/bin/env bash
# Runs ./stab on every example and compares what it writes with the file beside the job.
#
#   NAME.args  the words of the command line, one a line; no file: no words. A FILE is looked for
#              in this folder
#   NAME.json  the standard input; no file: nothing
#   NAME.out   what must be written to the standard output, with status 0 and an empty standard
#              error
#   NAME.err   the line that must be written to the standard error, and the status, with an empty
#              standard output
#
# A file NAME.run is compared by tests/check_drawn.py. STAB may name another program to compare in
# place of ./stab.
set -u
unset CDPATH
here=$(dirname -- "$(readlink -f -- "${BASH_SOURCE[0]}")")
cd -- "$here" || exit 1
top=$here/../../..
program=${STAB:-$top/stab}
work=$(mktemp -d) || exit 1
trap 'rm -rf -- "$work"' EXIT

# Writes down what an example must give.
expect() {
    if [ -e "$1.out" ]; then
        cp -- "$1.out" "$work/want_out"
        printf 'status 0\n' >"$work/want_err"
    else
        : >"$work/want_out"
        cp -- "$1.err" "$work/want_err"
    fi
}

# Writes down what an example gives: standard error is followed by the status.
run() {
    local words=() input=/dev/null word
    if [ -e "$1.args" ]; then
        while IFS= read -r word; do
            words+=("$word")
        done <"$1.args"
    fi
    if [ -e "$1.json" ]; then
        input=$1.json
    fi
    "$program" ${words[@]+"${words[@]}"} <"$input" >"$work/out" 2>"$work/err"
    printf 'status %s\n' "$?" >>"$work/err"
    # (what ./stab adds to a help, to say where its manual is)
    sed -i '/^stab: help is in its manual: /d' "$work/err"
}

# The files that say what is expected, in the order of the list.
expected_files() {
    find . \( -name '*.out' -o -name '*.err' -o -name '*.run' \) | sed 's/^\.\///' | LC_ALL=C sort
}

# The first use of ./stab builds the program: now, so that no example waits for it.
if ! "$program" <worst_start.json >"$work/out"; then
    printf 'the program cannot be run\n'
    exit 1
fi

same=0
other=0
while IFS= read -r file; do
    example=${file%.*}
    expect "$example"
    run "$example"
    if cmp -s "$work/want_out" "$work/out" && cmp -s "$work/want_err" "$work/err"; then
        printf 'same   %s\n' "$example"
        same=$((same + 1))
    else
        printf 'OTHER  %s\n' "$example"
        diff "$work/want_out" "$work/out"
        diff "$work/want_err" "$work/err"
        other=$((other + 1))
    fi
done < <(expected_files | grep -v '\.run$')

# The list names them all.
if ! expected_files | cmp -s - list; then
    printf 'OTHER  the list\n'
    expected_files | diff list -
    other=$((other + 1))
fi

printf '%s same, %s other\n' "$same" "$other"
[ "$other" -eq 0 ] && [ "$same" -gt 0 ]
