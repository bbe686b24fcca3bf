#!/usr/bin/env bash
# Refuses the calls of the nodes, of the keepers and of batches each request for memory in turn (refuse_calls.py).
#
#   tests/refuse_calls.sh [SCENARIO..]
#
# Builds tests/calls in a temporary folder, beside copies of the crates that it stands on, by a build that proves nothing
# (unproved.sh): what it calls is proved by the gate. It takes some two minutes.
# The last line is `N passed, M failed`; the exit status is 0 where M is 0 and N is not.

set -u
export LC_ALL=C PYTHONDONTWRITEBYTECODE=1
here=$(cd "$(dirname "$0")" && pwd)
source "$here/count.sh" || exit 1
source "$here/unproved.sh" || exit 1

# build: tests/calls, as the program $work/refused_calls.
build() {
    "$here/../bench/build_beside.py" --only-copied "$work" "$here/calls" refused_calls cns_batch cns_input cns_system cns_clearing \
        cns_depository cns_allocate cns_pool cns_netting cns_records cns_journal cns_movements cns_trades cns_ids thiserror &&
        make_module "$work" "$work/crates/refused_calls" list-keeper 1 && compile_module "$work" -O1 && link_program "$work" "$work/refused_calls"
}

if ! build; then
    tail -n 20 "$work/said"
    fail 'tests/calls is not built'
    say_end
fi
"$here/refuse_calls.py" "$work/refused_calls" "$@"
