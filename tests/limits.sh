#!/usr/bin/env bash
# Runs a program on inputs at its limits, and compares what it writes.
#
#   tests/limits.sh PROGRAM [--quick]
#
# The inputs, and what is to be written for them, come from make_limits.py. For each there is a line with
# its name, the time in seconds and the highest memory in MiB. Then three random inputs are compared with
# the oracle (oracle/fuzz.py with --limits; their seed is SEED, or 1). With --quick there are only the
# inputs that take some seconds at most.
# The last line is `N passed, M failed`; the exit status is 0 where M is 0 and N is not.
# LIMIT_SECONDS is the time that a run may take (600 where it is not set).

set -u
export LC_ALL=C
here=$(cd "$(dirname "$0")" && pwd)
limit=${LIMIT_SECONDS:-600}
program=''
quick=()
for word in "$@"; do
    case $word in
    --quick) quick=(--quick) ;;
    *) program=$word ;;
    esac
done
source "$here/count.sh" || exit 1

# line_of FILE NUMBER: a line of a file, cut off where it is long.
line_of() {
    sed -n "$2{p;q}" "$1" | tr '\0' '?' | cut -c 1-160
}

# run_limit NAME: one input.
run_limit() {
    local start end spent memory=0 status line
    if ! python3 "$here/make_limits.py" "$1" "$work/in" "$work/want"; then
        fail "$1" 'its input cannot be made'
        return
    fi
    rm -f "$work/usage"
    start=${EPOCHREALTIME/./}
    timeout -k 5 "$limit" python3 "$here/../bench/measure.py" "$work/usage" "$program" run \
        <"$work/in" >"$work/out" 2>"$work/err"
    status=$?
    end=${EPOCHREALTIME/./}
    spent=$((end - start))
    [[ -s $work/usage ]] && read -r memory <"$work/usage"
    printf '%-10s %10d %10d %6d.%03d %8d\n' "$1" "$(stat -c %s "$work/in")" "$(stat -c %s "$work/want")" \
        $((spent / 1000000)) $((spent % 1000000 / 1000)) $(((memory + 1023) / 1024))
    if ((status == 124 || status == 137)); then
        fail "$1" "no end within $limit seconds"
    elif ((status != 0)); then
        fail "$1" "exit status $status: $(head -c 300 "$work/err" | tr '\0' '?')"
    elif [[ -s $work/err ]]; then
        fail "$1" "standard error is not empty: $(head -c 300 "$work/err" | tr '\0' '?')"
    elif ! cmp -s "$work/want" "$work/out"; then
        line=$(cmp "$work/want" "$work/out" 2>&1 | sed -nE 's/.* line ([0-9]+).*/\1/p')
        fail "$1" "standard output, line ${line:-?}"
        [[ -n $line ]] && printf -- '- %s\n+ %s\n' "$(line_of "$work/want" "$line")" "$(line_of "$work/out" "$line")"
    else
        passed=$((passed + 1))
    fi
}

if [[ -z $program || ! -x $program || -d $program ]]; then
    fail program "no program $program"
    say_end
fi
program=$(cd "$(dirname "$program")" && pwd)/$(basename "$program")

printf '%-10s %10s %10s %10s %8s\n' limit 'bytes in' 'bytes out' seconds MiB
names=$(python3 "$here/make_limits.py" --names "${quick[@]+"${quick[@]}"}") || fail names 'make_limits.py gives none'
for name in $names; do run_limit "$name"; done

if ((${#quick[@]} == 0)); then
    start=${EPOCHREALTIME/./}
    (cd "$work" && python3 "$here/../oracle/fuzz.py" "$program" --limits --seed "${SEED:-1}") 2>&1 | tee "$work/log"
    end=${EPOCHREALTIME/./}
    counts=$(tail -n 1 "$work/log" | sed -nE 's/^([0-9]+) passed, ([0-9]+) failed$/\1 \2/p')
    if [[ -z $counts ]]; then
        fail 'random lines at the limits' 'no result'
    else
        passed=$((passed + ${counts% *}))
        failed=$((failed + ${counts#* }))
    fi
    printf 'random lines at the limits: %d seconds, with the oracle\n' $(((end - start) / 1000000))
fi
say_end
