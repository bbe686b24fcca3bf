#!/usr/bin/env bash
# tests/all.sh PROGRAM: every check that there is, one part after another. PROGRAM is where `rt ci` leaves
# the program, as a path from the top of the repository.
#
# A part passes where its exit status is 0 and its last line is `N passed, 0 failed` with N above 0. Any
# other part is a failure, which is named at the end with the lines that say what failed. What runs the
# program is run only where `rt ci` has made the program in this run.
# `rt ci` runs as many checks at once as RT_JOBS says; where that is not set, as many as there are processors, and no more
# than there is memory for. (Of itself it reckons two to three times the memory that a check takes, and leaves processors idle.)
# The last line of all is `N passed, M failed`: the sums of the parts, where each part that failed counts
# 1 in M at least. The exit status is 0 where M is 0 and N is not.
# tests/check_all.sh tests this file with stubs in place of the parts.

set -u -o pipefail
cd "$(dirname "$0")/.." || exit 1
export PYTHONDONTWRITEBYTECODE=1

# The lines that say what failed, and how many of them are shown again at the end.
telling='^FAIL |^WRONG |FAILED|NOT PROVED|NOT REFUSED|BAD EDIT|program and oracle differ|^again: '
most=40

passed=0
failed=0
times=()
failures=()
reasons=()
logs=()
work=$(mktemp -d) || exit 1
trap 'rm -rf "$work"' EXIT

# What a check of `rt ci` takes of the memory at most, in KiB.
readonly memory_of_a_check=4500000

# checks_at_once: how many checks there are processors and memory for.
checks_at_once() {
    local most room
    most=$(nproc)
    room=$(awk -v each="$memory_of_a_check" '$1 == "MemAvailable:" {print int($2 / each)}' /proc/meminfo)
    ((room >= 1)) || room=1
    printf '%d\n' "$((room < most ? room : most))"
}

# add_failure NAME WHY LOG: one part that failed.
add_failure() {
    printf '%s: %s\n' "$1" "$2"
    failures+=("$1")
    reasons+=("$2")
    logs+=("$3")
}

# part NAME COMMAND..: one part. Its output comes live, and into a log.
part() {
    local name=$1 log=$work/log-${#times[@]} began=$SECONDS last good=0 bad=0 why='' statuses
    shift
    printf '== %s\n' "$name"
    "$@" </dev/null 2>&1 | tee "$log"
    statuses=("${PIPESTATUS[@]}")
    last=$(tail -n 1 "$log" | tr '\0' '?')
    if [[ $last =~ ^([0-9]{1,9})\ passed,\ ([0-9]{1,9})\ failed$ ]]; then
        good=$((10#${BASH_REMATCH[1]}))
        bad=$((10#${BASH_REMATCH[2]}))
        ((bad == 0)) || why="$bad failed"
        ((bad > 0 || good > 0)) || why='nothing passed'
    else
        why='no last line N passed, M failed'
    fi
    if ((statuses[0] != 0)); then
        why="${why:+$why, }exit status ${statuses[0]}"
    elif ((statuses[1] != 0)); then
        why="${why:+$why, }its log was not written"
    fi
    [[ -z $why ]] || ((bad > 0)) || bad=1
    passed=$((passed + good))
    failed=$((failed + bad))
    times+=("$(printf '%7d  %s' "$((SECONDS - began))" "$name")")
    [[ -z $why ]] || add_failure "$name" "$why" "$log"
}

# part_of_program NAME COMMAND..: one part that runs the program, where this run has made it.
part_of_program() {
    if [[ -f $program && -x $program && $program -nt $work/start ]]; then
        part "$@"
        return
    fi
    printf '== %s\n' "$1"
    failed=$((failed + 1))
    add_failure "$1" "no program: rt ci did not make $program in this run" /dev/null
}

# lines_of LOG: the lines of a log that say what failed, those that sum up first; its end where none does.
lines_of() {
    local lines count
    lines=$(tr '\0' '?' <"$1" | LC_ALL=C grep -a '^rt: FAILED:'
        tr '\0' '?' <"$1" | LC_ALL=C grep -a -E "$telling" | LC_ALL=C grep -a -v '^rt: FAILED:')
    [[ -n $lines ]] || lines=$(tail -n 10 "$1" | tr '\0' '?')
    [[ -n $lines ]] || return 0
    count=$(wc -l <<<"$lines")
    head -n "$most" <<<"$lines"
    ((count <= most)) || printf '(%d more)\n' "$((count - most))"
}

# processor_seconds FILE: the sum of what `times` wrote there: of the shell and of all that it waited for, user and system.
processor_seconds() {
    awk '{gsub(/[ms]/, " "); all += 60 * $1 + $2 + 60 * $3 + $4} END {printf "%d\n", all}' "$1"
}

# say_end: the times, those of all parts and of the processors together, what failed, the last line and the exit status.
say_end() {
    local i
    printf '== seconds\n'
    ((${#times[@]} == 0)) || printf '%s\n' "${times[@]}"
    # (not in a substitution, where `times` would tell of that shell alone)
    times >"$work/times"
    printf '%7d  %s\n' "$SECONDS" 'all together' "$(processor_seconds "$work/times")" "of a processor, of which there are $(nproc)"
    if ((${#failures[@]} > 0)); then
        printf '== failed\n'
        for ((i = 0; i < ${#failures[@]}; i++)); do
            printf -- '-- %s: %s\n' "${failures[i]}" "${reasons[i]}"
            lines_of "${logs[i]}" | sed 's/^/    /'
        done
    fi
    printf '%d passed, %d failed\n' "$passed" "$failed"
    ((failed == 0 && passed > 0)) && exit 0
    exit 1
}

if (($# != 1)); then
    printf 'usage: tests/all.sh PROGRAM\n'
    failed=1
    say_end
fi
program=$1
: >"$work/start" || exit 1

part 'self-test of all.sh' tests/check_all.sh
part 'self-test of run_cases.sh' tests/check_run_cases.sh
part 'texts of the wrong bodies' tests/check_wrong_bodies.py
part 'names of the book' tests/check_book.py
part 'names of two crates' tests/check_names.py
part 'evidence of the README' tests/check_evidence.py
RT_JOBS=${RT_JOBS:-$(checks_at_once)}
export RT_JOBS
part 'proofs and wrong bodies' tests/prove.py
part_of_program 'examples' tests/run_cases.sh "$program" examples
part_of_program 'tests/cases' tests/run_cases.sh "$program" tests/cases
part_of_program 'tests/version-1' tests/run_cases.sh "$program" tests/version-1
part_of_program 'tests/faults' tests/run_cases.sh "$program" tests/faults
part_of_program 'tests/audit' tests/run_cases.sh "$program" tests/audit
part_of_program 'journals that are read' tests/check_journals.py "$program"
part_of_program 'refused memory' tests/refuse_memory.sh "$program"
part_of_program 'refused lines once more' tests/refuse_again.sh "$program"
part_of_program 'random inputs' oracle/fuzz.py "$program" --seed 1 --count 500
part_of_program 'strict runs and inputs by name' tests/check_strict.py "$program"
part_of_program 'what check tells' oracle/check.py "$program" --seed 1 --count 500
part_of_program 'reports as tables' tests/check_table.py "$program"
part_of_program 'runs that are followed' tests/check_follow.py "$program"
part_of_program 'the headline in reports' oracle/headline.py "$program" --seed 1 --count 300
part_of_program 'runs with workers' oracle/workers.py "$program" --seed 1 --count 100
part_of_program 'what make install sets up' tests/check_install.py "$program"
part_of_program 'the first commands of the README' tests/check_readme.py "$program"
part_of_program 'what journals tell' oracle/audit.py "$program" --seed 1 --count 60
part_of_program 'journals of both versions' oracle/versions.py "$program" --seed 1 --count 200
say_end
