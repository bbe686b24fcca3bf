#!/usr/bin/env bash
# Times the cell of cns_pool beside plain Rust.
#
#   bench/cell.sh
#
# Proves and builds bench/cell in a temporary folder, beside copies of the crates that it stands on;
# compiles cell_plain.rs by `rustc -O`; and lets cell.py run both and print a table. A first run takes
# some minutes. Where there is no rustc, the table has the cell's figures alone. The times are only
# printed; the exit status is 0, or 1 where something is not built or a run fails.
# CELL_TICKETS, CELL_ROUNDS and CELL_SEATS are as cell.py says.

set -u
export LC_ALL=C PYTHONDONTWRITEBYTECODE=1
here=$(cd "$(dirname "$0")" && pwd)
work=$(mktemp -d) || exit 1
trap 'rm -rf "$work"' EXIT

"$here/build_beside.py" "$work" "$here/cell" cell_bench cns_pool cns_ids anyhow -- 1 1 1 || exit 1
programs=("$work/crates/cell_bench/out/cell_bench")
if command -v rustc >/dev/null; then
    rustc -O --edition 2021 -o "$work/cell_plain" "$here/cell_plain.rs" || exit 1
    programs+=("$work/cell_plain")
    rustc --version
else
    printf 'no rustc: the cell alone is timed\n'
fi
"$here/cell.py" "${programs[@]}"
