#!/usr/bin/env bash
# Lets threads race at cells of cns_pool, and checks from outside what came of it.
#
#   tests/stress.sh [SEED]
#
# Proves and builds tests/stress in a temporary folder, beside copies of the crates that it stands on: a
# first run takes some minutes. Then four threads draw from a cell while a fifth pours into it and, in
# about half of the cells, seals it, all at random moments; cell after cell, on all processors, on one
# and on two; then 64 threads draw, on all processors. Another number of threads than 1 to 64 must be
# refused. tests/stress/check.py tests by counting that the tickets stand end to end from 0, that
# each seat's own starts rise, that none was drawn by a seat that had seen the seal, and what was asked,
# poured and sealed in the end; and that there were races. It is tested itself first, by broken outputs.
# The threads take turns as the system lets them, so a seed does not give the same run again.
# STRESS_CELLS (100 where it is not set) is how many cells there are each time; of 64 threads a fifth.
# The last line is `N passed, M failed`; the exit status is 0 where M is 0 and N is not.

set -u
export LC_ALL=C PYTHONDONTWRITEBYTECODE=1
here=$(cd "$(dirname "$0")" && pwd)
cells=${STRESS_CELLS:-100}
seed=${1:-}
[[ -n $seed ]] || seed=${SRANDOM:-$RANDOM}
source "$here/count.sh" || exit 1

# take_check NAME COMMAND..: adds up what the check in the file `said` passed and failed.
take_check() {
    local name=$1 status last
    shift
    "$@" >"$work/said" 2>&1
    status=$?
    last=$(tail -n 1 "$work/said")
    printf '== %s\n' "$name"
    cat "$work/said"
    if [[ $last =~ ^([0-9]{1,9})\ passed,\ ([0-9]{1,9})\ failed$ ]]; then
        passed=$((passed + 10#${BASH_REMATCH[1]}))
        failed=$((failed + 10#${BASH_REMATCH[2]}))
        ((10#${BASH_REMATCH[2]} > 0 || status == 0)) || fail "$name: exit status $status"
        ((10#${BASH_REMATCH[1]} > 0)) || fail "$name: nothing passed"
    else
        fail "$name: no last line N passed, M failed"
    fi
}

# check_output CELLS WORKERS: checks the output of a run.
check_output() {
    "$here/stress/check.py" "$1" "$2" <"$work/out"
}

# race NAME CELLS WORKERS COMMAND..: one run of the program, by the command before its name.
race() {
    local name=$1 cells=$2 workers=$3 status
    shift 3
    timeout 300 "$@" "$program" "$seed" "$cells" "$workers" >"$work/out" 2>"$work/err"
    status=$?
    if ((status != 0)); then
        fail "$name: exit status $status: $(head -c 200 "$work/err" | tr '\0\n' '??')"
        return
    fi
    take_check "$name" check_output "$cells" "$workers"
}

# refuse WORKERS: one run of the program on a number of workers that it must refuse.
refuse() {
    local workers=$1 status
    timeout 300 "$program" "$seed" 1 "$workers" >"$work/out" 2>"$work/err"
    status=$?
    if ((status == 1)) && [[ ! -s $work/out ]] && grep -q "^Error: $workers workers, not 1 to 64$" "$work/err"; then
        passed=$((passed + 1))
        printf '== %s workers are refused\n' "$workers"
    else
        fail "$workers workers" "exit status $status: $(head -c 200 "$work/err" | tr '\0\n' '??')"
    fi
}

if [[ ! $seed =~ ^[0-9]{1,19}$ || ! $cells =~ ^[1-9][0-9]{0,6}$ ]]; then
    fail 'the seed, or STRESS_CELLS, is no number'
    say_end
fi
printf 'seed %s\n' "$seed"
take_check 'self-test of check.py' "$here/stress/check.py" --self-test
if ! "$here/../bench/build_beside.py" "$work" "$here/stress" cell_stress \
    cns_pool cns_ids anyhow rand_pcg rand_core -- 1 1 4; then
    fail 'tests/stress is not built'
    say_end
fi
program=$work/crates/cell_stress/out/cell_stress

# The processors that this process may run on.
read -r -a processors < <(python3 -c 'import os; print(*sorted(os.sched_getaffinity(0)))')
race "${#processors[@]} processors" "$cells" 4 env
race 'one processor' "$cells" 4 taskset -c "${processors[0]}"
if ((${#processors[@]} > 1)); then
    race 'two processors' "$cells" 4 taskset -c "${processors[0]},${processors[1]}"
else
    printf 'no second processor: not run on two\n'
fi
race "64 workers, ${#processors[@]} processors" "$(((cells + 4) / 5))" 64 env
refuse 0
refuse 65
say_end
