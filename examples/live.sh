#!/usr/bin/env bash
# Asks `lv live` for the report of examples/report through two FIFOs, and inspects a view that comes by a third.
# The program is the built lv, or the one that is named.
set -euo pipefail
cd "$(dirname "$0")/.."

lv=${1:-crates/lv/out/lv}
work=$(mktemp -d)
trap 'rm -rf "$work"' EXIT
mkfifo "$work/lines" "$work/answers" "$work/view"

"$lv" live examples/report/report.toml < "$work/lines" > "$work/answers" &
live=$!
exec 3> "$work/lines" 4< "$work/answers"

# Sends a line, and prints the answers to it.
line=0
ask() {
    line=$((line + 1))
    echo "$*" >&3
    while read -r answer <&4 && [ "$answer" != "$line." ]; do
        echo "${answer#"$line: "}"
    done
}

ask feed ports examples/report/ports.arrows
ask feed calls examples/report/calls.arrows
"$lv" inspect "$work/view" > "$work/inspected" &
reader=$!
ask write countries "$work/view"
wait "$reader"
cat "$work/inspected"
ask undo

exec 3>&-
wait "$live"
