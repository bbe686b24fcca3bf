#!/usr/bin/env bash
# Times lots that workers serve, the drawing of their tickets alone, and the same in plain Rust.
#
#   bench/workers.sh PROGRAM
#
# Builds bench/serve in a temporary folder, beside copies of the crates that it stands on, where there is an `rt`: an
# optimised build that proves nothing, so its times are not quite those of the proved calls. Compiles workers_plain.rs by
# `rustc -O`, where there is one, and tell_usage.c; and lets workers.py run them with the program and print tables. It takes
# some minutes. The times are only printed; the exit status is 0, or 1 where something is not built or a run fails.
# WORKERS_LONGS, WORKERS_ROUNDS and WORKERS_COUNTS are as workers.py says.

set -u
export LC_ALL=C PYTHONDONTWRITEBYTECODE=1
here=$(cd "$(dirname "$0")" && pwd)
source "$here/../tests/unproved.sh" || exit 1
if (($# != 1)) || ! command -v "$1" >/dev/null; then
    printf 'usage: %s PROGRAM\n' "$0" >&2
    exit 2
fi
work=$(mktemp -d) || exit 1
trap 'rm -rf "$work"' EXIT
beside=()
"${CC:-cc}" -shared -fPIC -O1 -o "$work/tell_usage.so" "$here/tell_usage.c" -ldl || exit 1
if command -v rt >/dev/null; then
    "$here/build_beside.py" --only-copied "$work" "$here/serve" serve_bench \
        cns_system cns_allocate cns_pool cns_journal cns_depository cns_trades cns_ids anyhow || exit 1
    make_module "$work" "$work/crates/serve_bench" 2 20 && compile_module "$work" -O3 && link_program "$work" "$work/serve_bench" || {
        tail -n 20 "$work/said"
        exit 1
    }
    beside+=(--drawing "$work/serve_bench")
else
    printf 'no rt: the drawing alone is not timed\n'
fi
if command -v rustc >/dev/null; then
    rustc -O --edition 2021 -o "$work/workers_plain" "$here/workers_plain.rs" || exit 1
    beside+=(--plain "$work/workers_plain")
    rustc --version
else
    printf 'no rustc: nothing is timed beside the program\n'
fi
"$here/workers.py" "$1" "$work" ${beside[@]+"${beside[@]}"}
