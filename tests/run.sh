#!/usr/bin/env bash
# tests/run.sh PROGRAM FILE [WORD..]: `cnsd run WORD..` on an input of your own, by the program at hand (program.sh): PROGRAM, as a path
# from the top of the repository, where it is built and no source is newer than it, and else a build that proves nothing. What it writes
# comes on standard output, and the exit status is its own; which program it was is told on standard error. The status is 2 where FILE
# cannot be read, and 4 where the program could not be built.
set -u

# stop WHAT: a call that asks for nothing that can be done.
stop() {
    printf 'tests/run.sh: %s\n' "$1" >&2
    exit 2
}

(($# >= 2)) || stop 'usage: tests/run.sh PROGRAM FILE [WORD..]'
program=$1
file=$2
shift 2
[[ -e $file ]] || stop "there is no file $file"
[[ ! -d $file ]] || stop "$file is a folder"
{ exec <"$file"; } 2>/dev/null || stop "$file cannot be read"
cd "$(dirname "$0")/.." || exit 4
. tests/program.sh

have_program "$program" </dev/null || { echo 'tests/run.sh: the program was not built' >&2; exit 4; }
printf 'tests/run.sh: by %s (%s)\n' "$at_hand" "$(<"$about")" >&2
exec "$at_hand" run "$@"
