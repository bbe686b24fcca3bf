#!/usr/bin/env bash
# Tests all.sh: a copy of it stands in a folder of its own beside stubs of its parts. All is
# well there once; then one thing or another is wrong, and all.sh must fail and name the part.
#
#   tests/check_all.sh
#
# No real part is run. The last line is `N passed, M failed`. The exit status is 0 where nothing failed
# and something passed, else 1.

set -u
here=$(cd "$(dirname "$0")" && pwd)
work=$(mktemp -d) || exit 1
trap 'rm -rf "$work"' EXIT
tree=$work/tree
program=crates/cnsd/out/cnsd
passed=0
wrong=0

# The parts that are one file each, as FILE|NAME, and the names of all.
stubs=('tests/check_all.sh|self-test of all.sh' 'tests/check_run_cases.sh|self-test of run_cases.sh'
    'tests/check_wrong_bodies.py|texts of the wrong bodies' 'tests/check_book.py|names of the book' 'tests/check_names.py|names of two crates' 'tests/check_evidence.py|evidence of the README' 'tests/prove.py|proofs and wrong bodies'
    'tests/check_journals.py|journals that are read' 'oracle/audit.py|what journals tell'
    'tests/refuse_memory.sh|refused memory' 'tests/refuse_again.sh|refused lines once more'
    'oracle/fuzz.py|random inputs' 'tests/check_strict.py|strict runs and inputs by name' 'oracle/check.py|what check tells' 'tests/check_table.py|reports as tables' 'tests/check_follow.py|runs that are followed' 'oracle/headline.py|the headline in reports'
    'oracle/workers.py|runs with workers' 'tests/check_install.py|what make install sets up'
    'tests/check_readme.py|the first commands of the README' 'oracle/versions.py|journals of both versions')
of_program=('examples' 'tests/cases' 'tests/version-1' 'tests/faults' 'tests/audit' 'journals that are read' 'refused memory' 'refused lines once more' 'random inputs' 'strict runs and inputs by name' 'what check tells' 'reports as tables' 'runs that are followed' 'the headline in reports'
    'runs with workers' 'what make install sets up' 'the first commands of the README' 'what journals tell' 'journals of both versions')

# What the proofs do besides: they make the program, which answers with its input.
make_program="mkdir -p crates/cnsd/out && sleep 0.05 && printf '#!/bin/sh\ncat\n' >$program && chmod +x $program"

# stub FILE LINE..: a script of these lines.
stub() {
    local file=$tree/$1
    shift
    rm -f "$file"
    printf '%s\n' '#!/usr/bin/env bash' "$@" >"$file"
    chmod +x "$file"
}

# stub_proofs LINE..: a prove.py of these lines.
stub_proofs() {
    stub tests/prove.py '[[ $# == 0 ]] || exit 9' "$@"
}

# fresh: the folder with all.sh and run_cases.sh, five cases, and stubs; 33 things pass in it.
fresh() {
    rm -rf "$tree"
    mkdir -p "$tree/tests/cases" "$tree/tests/version-1" "$tree/tests/faults" "$tree/tests/audit" "$tree/oracle" "$tree/examples"
    cp "$here/all.sh" "$here/run_cases.sh" "$here/count.sh" "$tree/tests/"
    stub tests/check_all.sh "echo '2 passed, 0 failed'"
    stub tests/check_run_cases.sh "echo '2 passed, 0 failed'"
    stub tests/check_wrong_bodies.py "echo '1 passed, 0 failed'"
    stub tests/check_book.py "echo '1 passed, 0 failed'"
    stub tests/check_names.py "echo '1 passed, 0 failed'"
    stub tests/check_evidence.py "echo '1 passed, 0 failed'"
    stub tests/refuse_memory.sh "[[ \$* == $program ]] && echo well | \$1 && echo '2 passed, 0 failed'"
    stub tests/refuse_again.sh "[[ \$* == $program ]] && echo well | \$1 && echo '2 passed, 0 failed'"
    stub oracle/fuzz.py "[[ \$* == '$program --seed 1 --count 500' ]] && echo '2 passed, 0 failed'"
    stub tests/check_strict.py "[[ \$* == $program ]] && echo '1 passed, 0 failed'"
    stub oracle/check.py "[[ \$* == '$program --seed 1 --count 500' ]] && echo '1 passed, 0 failed'"
    stub tests/check_table.py "[[ \$* == $program ]] && echo '1 passed, 0 failed'"
    stub tests/check_follow.py "[[ \$* == $program ]] && echo '1 passed, 0 failed'"
    stub oracle/headline.py "[[ \$* == '$program --seed 1 --count 300' ]] && echo '1 passed, 0 failed'"
    stub oracle/workers.py "[[ \$* == '$program --seed 1 --count 100' ]] && echo '1 passed, 0 failed'"
    stub tests/check_install.py "[[ \$* == $program ]] && echo '1 passed, 0 failed'"
    stub tests/check_readme.py "[[ \$* == $program ]] && echo '1 passed, 0 failed'"
    stub tests/check_journals.py "[[ \$* == $program ]] && echo '1 passed, 0 failed'"
    stub oracle/audit.py "[[ \$* == '$program --seed 1 --count 60' ]] && echo '1 passed, 0 failed'"
    stub oracle/versions.py "[[ \$* == '$program --seed 1 --count 200' ]] && echo '1 passed, 0 failed'"
    stub_proofs "$make_program" "echo '3 passed, 0 failed'"
    printf 'one\n' | tee "$tree/examples/one.in" >"$tree/examples/one.out"
    printf 'two\n' | tee "$tree/tests/cases/two.in" >"$tree/tests/cases/two.out"
    printf 'three\n' | tee "$tree/tests/version-1/three.in" >"$tree/tests/version-1/three.out"
    printf 'four\n' | tee "$tree/tests/faults/four.in" >"$tree/tests/faults/four.out"
    printf 'five\n' | tee "$tree/tests/audit/five.in" >"$tree/tests/audit/five.out"
}

# old_program: a program of an earlier run.
old_program() {
    mkdir -p "$tree/crates/cnsd/out"
    printf '#!/bin/sh\ncat\n' >"$tree/$program"
    chmod +x "$tree/$program"
    touch -d '1 minute ago' "$tree/$program"
}

# expect WHAT LAST LINE..: what all.sh says: its last line, with the exit status that goes with it, and
# these whole lines behind the line `== failed`; no such line, where none is given.
expect() {
    local what=$1 last=$2 line got status=1 why=''
    shift 2
    [[ $last == *', 0 failed' ]] && status=0
    "$tree/tests/all.sh" "$program" >"$work/said" 2>&1
    got=$?
    sed -n '/^== failed$/,$p' "$work/said" >"$work/end"
    ((got == status)) || why+="status $got, expected $status; "
    [[ $(tail -n 1 "$work/said") == "$last" ]] || why+="last line, expected $last; "
    [[ $# -gt 0 || ! -s $work/end ]] || why+='failures, expected none; '
    for line in "$@"; do
        grep -q -x -F -e "$line" "$work/end" || why+="no line $line; "
    done
    if [[ -z $why ]]; then
        passed=$((passed + 1))
        return
    fi
    wrong=$((wrong + 1))
    printf 'WRONG %s: %s\n' "$what" "${why%; }"
    sed 's/^/    /' "$work/said"
}

fresh
expect 'all is well' '33 passed, 0 failed'
for name in "${stubs[@]#*|}" "${of_program[@]}"; do
    if grep -q -x -F "== $name" "$work/said" &&
        sed '1,/^== seconds$/d' "$work/said" | grep -q -E "^ +[0-9]+  $name\$"; then
        passed=$((passed + 1))
    else
        wrong=$((wrong + 1))
        printf 'WRONG all is well: no part %s, or no time of it\n' "$name"
    fi
done

# The times of the whole run, and of a processor in it: a part that keeps one busy is counted.
fresh
stub tests/check_book.py "for ((i = 0; i < 300000; i++)); do :; done; echo '1 passed, 0 failed'"
expect 'a part that takes its time' '33 passed, 0 failed'
sed '1,/^== seconds$/d' "$work/said" >"$work/times"
if grep -q -E '^ +[0-9]+  all together$' "$work/times" && grep -q -E "^ +[1-9][0-9]*  of a processor, of which there are $(nproc)\$" "$work/times"; then
    passed=$((passed + 1))
else
    wrong=$((wrong + 1))
    printf 'WRONG a part that takes its time: no time of all, or none of a processor\n'
fi

# The folders of cases.
fresh
rm "$tree"/examples/*
expect 'examples are emptied' '32 passed, 1 failed' '-- examples: nothing passed, exit status 1'
fresh
rm -r "$tree/tests/cases"
expect 'a folder of cases is gone' '32 passed, 1 failed' '-- tests/cases: 1 failed, exit status 1' \
    '    FAIL tests/cases: no such folder'
fresh
echo three >"$tree/examples/one.out"
expect 'a case fails' '32 passed, 1 failed' '-- examples: 1 failed, exit status 1' \
    '    FAIL examples/one: standard output'

# The program: only what this run has made is run.
no_program=()
for name in "${of_program[@]}"; do
    no_program+=("-- $name: no program: rt ci did not make $program in this run")
done
fresh
stub_proofs "echo '3 passed, 0 failed'"
expect 'no program' '11 passed, 19 failed' "${no_program[@]}"
old_program
expect 'an old program' '11 passed, 19 failed' "${no_program[@]}"
stub_proofs "echo 'rt: cns_pool NOT PROVED'" "echo 'rt: FAILED: cns_pool'" "echo '2 passed, 1 failed'" 'exit 1'
expect 'an old program, and a proof fails' '10 passed, 20 failed' '-- proofs and wrong bodies: 1 failed, exit status 1' \
    '    rt: FAILED: cns_pool' '    rt: cns_pool NOT PROVED' "${no_program[@]}"
stub_proofs 'kill -9 $$'
expect 'an old program, and the proofs are killed' '8 passed, 20 failed' "${no_program[@]}" \
    '-- proofs and wrong bodies: no last line N passed, M failed, exit status 137'
fresh
stub_proofs "$make_program" "echo 'FAIL cns_pool/a.edit'" "echo '2 passed, 1 failed'" 'exit 1'
expect 'an edit is not refused, but the program is made' '32 passed, 1 failed' '-- proofs and wrong bodies: 1 failed, exit status 1' \
    '    FAIL cns_pool/a.edit'

# Each part by itself: its counts are good, its exit status is not.
for one in "${stubs[@]}"; do
    fresh
    echo 'exit 1' >>"$tree/${one%%|*}"
    expect "${one#*|} has status 1" '33 passed, 1 failed' "-- ${one#*|}: exit status 1"
done

# all_parts WHAT LAST WHY LINE..: each part that is a file of its own ends by these lines, and must be
# named with this reason; the three folders of cases pass.
all_parts() {
    local what=$1 last=$2 why=$3 one lines=()
    shift 3
    fresh
    for one in "${stubs[@]}"; do
        stub "${one%%|*}" "$@"
        lines+=("-- ${one#*|}: $why")
    done
    stub_proofs "$make_program" "$@"
    expect "$what" "$last" "${lines[@]}"
}
all_parts 'ended early' '5 passed, 21 failed' 'no last line N passed, M failed' 'echo begun'
all_parts 'killed' '5 passed, 21 failed' 'no last line N passed, M failed, exit status 137' 'echo begun' 'kill -9 $$'
all_parts 'silent' '5 passed, 21 failed' 'no last line N passed, M failed' ':'
all_parts 'nothing passed' '5 passed, 21 failed' 'nothing passed' "echo '0 passed, 0 failed'"
all_parts 'two failures each' '26 passed, 42 failed' '2 failed' "echo '1 passed, 2 failed'"
fresh
rm "$tree/tests/refuse_memory.sh"
expect 'a part is gone' '31 passed, 1 failed' \
    '-- refused memory: no last line N passed, M failed, exit status 127'
fresh
stub oracle/fuzz.py "echo '2 passed, 0 failed'" "echo 'and then'"
expect 'counts that are not the last line' '31 passed, 1 failed' '-- random inputs: no last line N passed, M failed'
fresh
stub oracle/fuzz.py "printf 'FAIL %d\n' {1..50}" "printf 'a\\0b\\n'" "echo '2 passed, 50 failed'" 'exit 1'
expect 'many failures' '33 passed, 50 failed' '    FAIL 40' '    (10 more)'

printf '%d passed, %d failed\n' "$passed" "$wrong"
((wrong == 0 && passed > 0))
