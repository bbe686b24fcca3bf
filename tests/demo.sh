#!/usr/bin/env bash
# tests/demo.sh PROGRAM: runs the worked example by the program at hand (program.sh), which is PROGRAM where that is built and no source
# is newer than it, and else a build that proves nothing.
set -eu
cd "$(dirname "$0")/.."
. tests/program.sh

input=examples/plain-night.in
want=examples/plain-night.out

have_program "$1"
echo "--- $input"
cat "$input"
echo "--- what $at_hand run writes for it ($(<"$about"))"
work=$(mktemp -d)
trap 'rm -rf "$work"' EXIT
"$at_hand" run <"$input" >"$work/got"
cat "$work/got"
echo "---"
if ! cmp -s "$work/got" "$want"; then
    echo "this is not what $want has" >&2
    exit 1
fi
echo "as $want has it"
