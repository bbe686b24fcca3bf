#!/usr/bin/env bash
# Measures a program on large inputs.
#
#   bench/run.sh PROGRAM [--strict]
#
# Reading: 10,000, 100,000 and 1,000,000 trades, each taken and told. From one size
# to the next the time may grow by 12 at most: the last column says `ok` or `TOO SLOW`.
# Netting: 1,000, 4,000 and 16,000 trades of 50 members in 20 issues, two cycles and a
# report. Lots: 1,250, 5,000 and 20,000 trades in 200 issues, three rounds of a cycle, a pump,
# a lot of each issue and a pump. Longs: 1,000, 3,000 and 9,000 members that one lot of one
# issue serves. These times are only printed.
# Each input is run three times; the time is the best, the memory the highest.
# The exit status is 0; with --strict it is 1 where a line of the first table says
# TOO SLOW or FAILED.
# BENCH_SECONDS is the time that a run may take (600 where it is not set).

set -u
export LC_ALL=C
here=$(cd "$(dirname "$0")" && pwd)
limit=${BENCH_SECONDS:-600}
most=12
runs=3

program=''
strict=no
for word in "$@"; do
    case $word in
    --strict) strict=yes ;;
    *) program=$word ;;
    esac
done
if [[ -z $program ]] || ! command -v "$program" >/dev/null; then
    printf 'usage: %s PROGRAM [--strict]\n' "$0" >&2
    exit 2
fi

work=$(mktemp -d) || exit 2
trap 'rm -rf "$work"' EXIT
bad=0

# timed INPUT: one run; `spent` in microseconds, `memory` in kilobytes, `status`.
timed() {
    local start end
    start=${EPOCHREALTIME/./}
    if [[ -x /usr/bin/time ]]; then
        timeout "$limit" /usr/bin/time -v -o "$work/usage" "$program" run <"$1" >"$work/out" 2>"$work/err"
        status=$?
    else
        timeout "$limit" python3 "$here/measure.py" "$work/usage" "$program" run <"$1" >"$work/out" 2>"$work/err"
        status=$?
    fi
    end=${EPOCHREALTIME/./}
    spent=$((end - start))
    memory=0
    if ((status == 0)); then
        if [[ -x /usr/bin/time ]]; then
            memory=$(while read -r line; do
                [[ $line == 'Maximum resident set size'* ]] && printf '%s' "${line##* }"
            done <"$work/usage")
        else
            read -r memory <"$work/usage"
        fi
    fi
}

# seconds MICROSECONDS: as seconds with three places.
seconds() {
    printf '%d.%03d' $(($1 / 1000000)) $(($1 % 1000000 / 1000))
}

# measure ROWS LEAST FACTOR ARGUMENT..: makes the input, runs it three times and prints a
# line of the table. LEAST: how many lines the output has at least. FACTOR: the growth of
# the time that is let pass, `-` where any is.
last=''
measure() {
    local rows=$1 least=$2 factor=$3 best='' high=0 size lines word growth
    shift 3
    python3 "$here/make_input.py" "$rows" "$@" >"$work/in" || exit 2
    size=$(stat -c %s "$work/in")
    for ((run = 0; run < runs; run++)); do
        timed "$work/in"
        lines=$(wc -l <"$work/out")
        if ((status != 0 || lines < least)); then
            word="FAILED: exit status $status, $lines lines"
            ((status == 124)) && word="FAILED: over $limit seconds"
            printf '%10d %10d %s\n' "$rows" "$size" "$word"
            bad=1
            last=''
            return
        fi
        [[ -z $best ]] || ((spent < best)) && best=$spent
        ((memory > high)) && high=$memory
    done
    growth='-'
    word=''
    if [[ -n $last ]]; then
        growth=$((best * 100 / last))
        if [[ $factor != - ]]; then
            word=ok
            if ((growth > factor * 100)); then
                word='TOO SLOW'
                bad=1
            fi
        fi
        growth=$(printf '%d.%02d' $((growth / 100)) $((growth % 100)))
    fi
    printf '%10d %10d %9s %9d %9s %s\n' "$rows" "$size" "$(seconds "$best")" $(((high + 1023) / 1024)) "$growth" "$word"
    last=$best
}

printf 'reading (TAKE ALL)\n'
printf '%10s %10s %9s %9s %9s\n' rows bytes seconds MiB growth
last=''
measure 10000 10000 "$most"
measure 100000 100000 "$most"
measure 1000000 1000000 "$most"

netting=$bad
printf '\nnetting (50 members, 20 issues, two cycles, a report)\n'
printf '%10s %10s %9s %9s %9s\n' rows bytes seconds MiB growth
last=''
measure 1000 1000 - --members 50 --issues 20 --net
measure 4000 4000 - --members 50 --issues 20 --net
measure 16000 16000 - --members 50 --issues 20 --net

printf '\nlots (500 members, 20 of them sellers, 200 issues, three rounds)\n'
printf '%10s %10s %9s %9s %9s\n' rows bytes seconds MiB growth
last=''
measure 1250 1250 - --sellers 20 --rounds 3
measure 5000 5000 - --sellers 20 --rounds 3
measure 20000 20000 - --sellers 20 --rounds 3

printf '\nlongs (one lot of one issue)\n'
printf '%10s %10s %9s %9s %9s\n' rows bytes seconds MiB growth
last=''
measure 1000 3000 - --longs
measure 3000 9000 - --longs
measure 9000 27000 - --longs
bad=$netting

[[ $strict == yes ]] && exit "$bad"
exit 0
