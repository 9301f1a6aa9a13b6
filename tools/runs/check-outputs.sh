#!/usr/bin/env bash
# Runs the built lv, or the program that is named, with standard outputs that take nothing: closed, full, a pipe that nobody reads.
# The example of each command must end with status 1, and recast and run must have left their streams in their files, with nothing before or
# behind.
# Then with files that take nothing, or no more than so many bytes: that is refused, a view's file holds these, recast leaves none, and
# a script goes on.
set -euo pipefail
cd "$(dirname "$0")/../.."

lv=${1:-crates/lv/out/lv}
stream=examples/orders.arrows
report=examples/report
work=$(mktemp -d)
trap 'rm -rf "$work"' EXIT

fail() {
    echo "outputs: FAILED, $1" >&2
    exit 1
}

[ -x "$lv" ] || fail "$lv is not there; make lv builds it"
"$lv" recast "$stream" "$work/whole" > /dev/null || fail "recast of $stream"
printf 'feed calls %s\nwrite report %s\n' "$report/calls.arrows" "$work/view" > "$work/script"
"$lv" run "$report/report.toml" "$work/script" > /dev/null || fail "run of two lines"
mv "$work/view" "$work/whole-view"
# What run's example writes lies in the folder out; a script of its own follows below.
mapfile -t examples < <(tools/makers/command_tables.py --examples | grep -v '^lv run ')
[ "${#examples[@]}" -gt 1 ] || fail "there are no examples of commands"

# Runs lv with the words that follow and its output as $1 says, and keeps its status.
run_with() {
    local output=$1
    shift
    status=0
    case "$output" in
        closed) "$lv" "$@" >&- || status=$? ;;
        all-closed) "$lv" "$@" <&- >&- 2>&- || status=$? ;;
        full) "$lv" "$@" > /dev/full || status=$? ;;
        unread) { sleep 0.2; "$lv" "$@" && status=0 || status=$?; echo "$status" > "$work/status"; } | :; status=$(< "$work/status") ;;
    esac
}

for output in closed all-closed full unread; do
    rm -f "$work/out" "$work/view"
    run_with "$output" recast "$stream" "$work/out"
    [ "$status" -eq 1 ] || fail "recast, standard output $output: status $status"
    cmp "$work/whole" "$work/out" || fail "recast, standard output $output: OUT isn't the canonical stream"
    for words in "${examples[@]}" "lv show --csv --rows 9 $stream"; do
        # Without a standard input live has nothing to answer.
        [[ "$output $words" != "all-closed lv live "* ]] || continue
        run_with "$output" ${words#lv } <<< "feed calls $report/calls.arrows"
        [ "$status" -eq 1 ] || fail "$words, standard output $output: status $status"
    done
    run_with "$output" recast "$stream"
    [ "$status" -eq 1 ] || fail "wrong use, standard output $output: status $status"
    run_with "$output" run "$report/report.toml" "$work/script"
    [ "$status" -eq 1 ] || fail "run, standard output $output: status $status"
    cmp "$work/whole-view" "$work/view" || fail "run, standard output $output: what was written isn't the view"
done

# Runs lv with the words that follow where no file may be longer than $1 KiB, and a write past that fails. Keeps what it prints, and its
# status.
run_within() {
    local most=$1
    shift
    status=0
    printed=$(trap "" XFSZ && ulimit -f "$most" && "$lv" "$@") || status=$?
}

# Whether the last run was refused for its device, having left the first $1 bytes of the stream $2 in the file $3.
is_cut() {
    [ "$status" -eq 1 ] && [ "$(wc -c < "$3")" -eq "$1" ] && cmp -s -n "$1" "$2" "$3"
}

refused="refused 56 Device"
run_within unlimited recast "$stream" /dev/full
[ "$status $printed" = "1 $refused" ] || fail "recast to a full device: status $status, $printed"
size=$(wc -c < "$work/whole")
for ((most = 0; most * 1024 < size; most++)); do
    rm -f "$work/out"
    run_within "$most" recast "$stream" "$work/out"
    [ "$status $printed" = "1 $refused" ] && [ -z "$(find "$work" -name "out*")" ] || fail "recast with $most KiB: status $status, $printed"
done
run_within "$most" recast "$stream" "$work/out"
[ "$status $printed" = "0 wrote $size" ] || fail "recast with $most KiB: status $status, $printed"
cmp "$work/whole" "$work/out" || fail "recast with $most KiB: OUT isn't the canonical stream"

size=$(wc -c < "$work/whole-view")
printf 'feed calls %s\nwrite report /dev/full\nwrite report %s\nundo\n' "$report/calls.arrows" "$work/out" > "$work/script"
for most in 0 unlimited; do
    rm -f "$work/out"
    run_within "$most" run "$report/report.toml" "$work/script"
    if [ "$most" = 0 ]; then second=$refused left=0; else second="wrote $size" left=$size; fi
    [[ "$printed" = *"
2: $refused
3: $second
4: undone" ]] && is_cut "$left" "$work/whole-view" "$work/out" || fail "run with $most KiB: status $status, $printed"
done
echo "outputs: closed, full and unread, each with status 1 and whole files; files on a full device, and no longer than so many bytes"
