#!/usr/bin/env bash
# Times the journals on a disk beside plain Rust.
#
#   bench/journal.sh PROGRAM [FOLDER]
#
# Compiles journal_plain.rs by `rustc -O`, and lets journal.py run both in a new folder within FOLDER (the
# current one where none is given: what a sync costs is a matter of the disk). Where there is no rustc, the
# program's figures stand alone. The times are only printed; the exit status is 0, or 1 where a run fails.
# JOURNAL_TRADES, JOURNAL_ROUNDS and JOURNAL_RECORDS are as journal.py says.

set -u
export LC_ALL=C PYTHONDONTWRITEBYTECODE=1
here=$(cd "$(dirname "$0")" && pwd)
if (($# < 1 || $# > 2)) || ! command -v "$1" >/dev/null; then
    printf 'usage: %s PROGRAM [FOLDER]\n' "$0" >&2
    exit 2
fi
work=$(mktemp -d "${2:-.}/journal-XXXXXX") || exit 1
trap 'rm -rf "$work"' EXIT
if command -v rustc >/dev/null; then
    rustc -O --edition 2021 -o "$work/journal_plain" "$here/journal_plain.rs" || exit 1
    rustc --version
    "$here/journal.py" "$1" "$work" "$work/journal_plain"
else
    printf 'no rustc: the program alone is timed\n'
    "$here/journal.py" "$1" "$work"
fi
