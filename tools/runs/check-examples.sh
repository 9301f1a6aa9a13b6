#!/usr/bin/env bash
# Runs the built lv, or the program that is named, over each example. Recast must write the canonical stream whose sum is kept in
# examples/canonical.sha256, the recast of that stream must be itself, and inspect must print examples/NAME.txt. The script of
# examples/report must print report/printed, and write the views that inspect and their sums tell.
set -euo pipefail
cd "$(dirname "$0")/../.."
export LC_ALL=C

lv=${1:-crates/lv/out/lv}
work=$(mktemp -d)
trap 'rm -rf "$work"' EXIT

fail() {
    echo "examples: FAILED, $1" >&2
    exit 1
}

[ -x "$lv" ] || fail "$lv is not there; make lv builds it"

# Recasts $1 to $2, printing what lv says only where that isn't its success.
recast() {
    "$lv" recast "$1" "$2" > "$work/line" || fail "recast of $1: $(< "$work/line")"
}

check() {
    local stream=examples/$1.arrows canonical=$work/$1.canon
    recast "$stream" "$canonical"
    recast "$canonical" "$work/again"
    cmp "$canonical" "$work/again" || fail "the canonical stream of $stream isn't its own"
    "$lv" inspect "$stream" | diff "examples/$1.txt" - || fail "inspect of $stream"
}

for stream in examples/*.arrows; do
    check "$(basename "$stream" .arrows)"
done
lv=$(realpath "$lv")
ln -s "$PWD/examples" "$work/examples"
mkdir "$work/out"
(cd "$work" && "$lv" check examples/report/report.toml && "$lv" run examples/report/report.toml examples/report/script) |
    diff examples/report/printed - || fail "the script of the report"
(cd "$work/out" && sha256sum -- *.arrows) | diff examples/report/views.sha256 - || fail "the views of the report are others"
(cd "$work" && sha256sum -- *.canon) | diff examples/canonical.sha256 - || fail "the canonical streams are others"
echo "examples: recast and inspected, $(wc -l < examples/canonical.sha256) streams, and a report of $(wc -l < examples/report/views.sha256) views"
