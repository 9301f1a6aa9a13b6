#!/usr/bin/env bash
# Runs the built lv, or the program that is named, with each of its requests for memory refused in turn: that one alone, then
# that one and all after it: recast, inspect and show over each example, and the example of each other command that runs no lines.
# Each run may do the whole work, or say `refused 55 Memory` and nothing else, but show behind some of its rows; recast has written
# nothing then, and left no file. Where not even its words could be held it may say `wrong use` having written nothing.
set -euo pipefail
cd "$(dirname "$0")/../.."

lv=${1:-crates/lv/out/lv}
if ! command -v cc > /dev/null; then
    echo "refused memory: skipped, since no C compiler (cc) is on the PATH"
    exit 0
fi
if [ ! -x "$lv" ]; then
    echo "refused memory: $lv is not there; make lv builds it" >&2
    exit 1
fi

work=$(mktemp -d)
trap 'rm -rf "$work"' EXIT
cc -O2 -shared -fPIC -o "$work/refuse.so" tools/runs/refuse_memory.c

# What the last run left, and what the whole work leaves: `line`, all that was printed, and from recast `out`.
last=$work/last
whole=$work/whole
mkdir "$last" "$whole"

# Runs the command $1 over $2 with request $3 refused, and all after it where $4 is 1.
run() {
    local asked
    read -ra asked <<< "$1 $2"
    command=$1
    [ "$1" != recast ] || asked+=("$last/out")
    rm -f "$last"/* "$work/mark"
    status=0
    LD_PRELOAD="$work/refuse.so" REFUSE_AT=$3 REFUSE_ON=$4 REFUSE_MARK="$work/mark" \
        "$lv" "${asked[@]}" > "$last/line" 2> "$work/error" || status=$?
}

fail() {
    echo "refused memory: FAILED, $1" >&2
    cat "$last/line" "$work/error" >&2
    exit 1
}

# The words of the program take no more requests than this.
words=8

# Whether the last run's answer is one that may come where request $1 is refused. Where none was, it is the whole. Standard
# error tells at most that memory ran out for a configuration.
is_right() {
    ! grep -qv ': memory ran out$' "$work/error" || return 1
    [ -e "$work/mark" ] || [ "$status" -eq 0 ] || return 1
    case "$status $(tail -n 1 "$last/line")" in
        "0 "*) diff -r "$whole" "$last" > /dev/null ;;
        "1 refused 55 Memory") is_beginning ;;
        "2 wrong use") [ -n "$no_words" ] && [ "$1" -le "$words" ] && [ "$(ls -A "$last")" = line ] ;;
        *) return 1 ;;
    esac
}

# Whether nothing was printed before the last line, or by show a beginning of its rows, and no file was left.
is_beginning() {
    head -n -1 "$last/line" > "$work/rows"
    [ ! -s "$work/rows" ] || [ "$command" = show ] || return 1
    cmp -s -n "$(wc -c < "$work/rows")" "$work/rows" "$whole/line" || return 1
    [ "$(ls -A "$last")" = line ]
}

# The whole work of the command $1 over $2.
whole_work() {
    run "$1" "$2" 0 0
    [ "$status" -eq 0 ] || fail "$1 over $2 with all of its memory: status $status"
    rm -f "$whole"/*
    mv "$last"/* "$whole"
}

# Refuses each request of the command $1 over $2 in turn, and says how many there were.
each_request() {
    local at on
    whole_work "$1" "$2"
    for on in 0 1; do
        no_words=yes
        for ((at = 1; ; at++)); do
            run "$1" "$2" "$at" "$on"
            is_right "$at" || fail "$1 over $2 at request $at (all after it: $on): status $status"
            [ -e "$work/mark" ] || break
            [ "$status" -eq 2 ] || no_words=
        done
        [ "$at" -gt 1 ] || fail "nothing was refused"
    done
    counted="$counted, $((at - 1)) of $1 over $2"
}

counted=
for stream in crates/lv/data/IN examples/*.arrows; do
    each_request recast "$stream"
    each_request inspect "$stream"
    each_request show "$stream"
done
while read -r _ name over; do
    case $name in
        recast | inspect | show | run | live) ;; # refuse-run.py has those that run lines
        *) each_request "$name" "$over" ;;
    esac
done < <(tools/makers/command_tables.py --examples)
echo "refused memory: each request refused in turn${counted}; every answer was right"
