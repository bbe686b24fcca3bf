#!/usr/bin/env bash
# Tests run_cases.sh with a small program made here: cases that must pass, and
# cases each of which must fail, with the reason that is told.
#
#   tests/check_run_cases.sh
#
# The last line is `N passed, M failed`. The exit status is 0 where nothing failed
# and something passed, else 1.

set -u
here=$(cd "$(dirname "$0")" && pwd)
work=$(mktemp -d) || exit 1
trap 'rm -rf "$work"' EXIT
passed=0
wrong=0

# The program: what it does is told by its first argument.
cat >"$work/program" <<'END'
#!/usr/bin/env bash
case ${1-nothing} in
run) cat ;;
words) printf '%s\n' "$@" ;;
nothing) echo no arguments ;;
status) exit "$2" ;;
complain) echo 'out of order' >&2; exit "${2-0}" ;;
nul) printf 'a\0b' ;;
count) wc -c | tr -d ' ' ;;
sleep) sleep 20 ;;
keep) # the journal folder: adds a byte to each file
    printf '\xa5' >>"$2/clear.journal"; printf '\x00' >>"$2/depot.journal"
    wc -c <"$2/clear.journal" | tr -d ' ' ;;
there) [[ -e $2 ]] && echo there || echo missing ;;
shaken) # `shaken --shake N`: the last report is the same for each N but 77 of `shaken odd`
    n=${*: -1}; [[ $2 != odd || $n != 77 ]] && n=0
    printf 'send %s packet 1\nREPORT cycle none\nBAL 1\nEND\nsend 2 packet %s\nREPORT cycle none\nBAL %s\nEND\n' "$3" "$3" "$n" ;;
lot) # tickets in the order given, deliveries likewise (`swapped`: not)
    echo 'lot 1 poured 20 longs 2'
    printf 'ticket %s start 0 asked 10\nticket %s start 10 asked 10\n' "$2" "$3"
    [[ ${4-} == swapped ]] && set -- lot "$3" "$2"
    printf 'close granted 20\norder 2 DELIVERY %s 037833100 10\norder 3 DELIVERY %s 037833100 10\n' "$2" "$3" ;;
esac
END
chmod +x "$work/program"

# put FOLDER FILE TEXT: a file of a case, TEXT as printf reads it.
put() {
    mkdir -p "$work/$1"
    printf "$3" >"$work/$1/$2"
}

# Cases that pass.
put good plain.in 'one\ntwo\n'
put good plain.out 'one\ntwo\n'
put good second.in 'b'
put good second.out 'a'
put good second.out2 'b'
put good tenth.in 'j'
put good tenth.out 'a'
put good tenth.out10 'j'
put good words.args 'words two  three\n'
put good words.out 'words\ntwo\nthree\n'
put good none.args ''
put good none.out 'no arguments\n'
put good star.args 'words *\n'
put good star.out 'words\n*\n'
put good status.args 'status 3'
put good status.status '3\n'
put good status.out ''
put good unsaid.args 'complain 2'
put good unsaid.status '2'
put good unsaid.out ''
put good said.args 'complain 0'
put good said.err 'out of order\n'
put good said.out ''
put good nul.args 'nul'
put good nul.out 'a\0b'
put good filled.args 'count'
put good filled.in '[script]\n'
put good filled.pad '100000\n'
put good filled.out '100000\n'
put good new-1.args 'keep {journal}'
put good new-1.out '1\n'
put good new-1.after.clear.hex 'A5\n'
put good new-1.after.depot.hex '00\n'
put good new-2.args 'keep {journal}'
put good new-2.out '1\n'
put good shared-1.args 'keep {journal:one}'
put good shared-1.out '1\n'
put good shared-2.args 'keep {journal:one}'
put good shared-2.out '2\n'
put good shared-2.after.clear.hex 'a5 a5'
put good shared-3.args 'keep {journal:two}'
put good shared-3.out '1\n'
put good before.args 'keep {journal}'
put good before.before.clear.hex 'a5 0000 ff\n12'
put good before.after.clear.hex 'a50000ff12a5'
put good before.out '6\n'
put good large.args 'keep {journal}'
head -c 400000 /dev/zero | tr '\0' 'a' >"$work/good/large.before.clear.hex"
put good large.out '200001\n'
put good missing.args 'there {missing}'
put good missing.out 'missing\n'
put good shaken.args 'shaken even'
put good shaken.rule 'last-report-shaken\n'
put good shaken.out 'REPORT cycle none\nBAL 0\nEND\n'
put good lot.args 'lot 0003 0002'
put good lot.rule 'members-in-any-order\n'
put good lot.out 'lot 1 poured 20 longs 2\nticket 0002 start 0 asked 10\nticket 0003 start 10 asked 10\nclose granted 20\norder 2 DELIVERY 0002 037833100 10\norder 3 DELIVERY 0003 037833100 10\n'
put good README.md 'no part of a case\n'
# The same shared name in another folder is another journal.
put other shared.args 'keep {journal:one}'
put other shared.out '1\n'

# Cases each of which fails, one in a folder, with the reason told.
reasons=()
bad() {
    reasons+=("$1|$2")
}
put bad-output case.in 'one\ntwo\n'
put bad-output case.out 'one\nthree\n'
bad bad-output 'FAIL .*bad-output/case: standard output'
put bad-newline case.in 'one'
put bad-newline case.out 'one\n'
bad bad-newline 'FAIL .*case: standard output'
put bad-nul case.args 'nul'
put bad-nul case.out 'ab'
bad bad-nul 'FAIL .*case: standard output'
put bad-status case.args 'status 1'
put bad-status case.out ''
bad bad-status 'FAIL .*case: exit status 1, expected 0'
put bad-silence case.args 'status 0'
put bad-silence case.err 'cnsd: bad rows\n'
put bad-silence case.out ''
bad bad-silence 'FAIL .*case: standard error'
put bad-noise case.args 'complain 0'
put bad-noise case.out ''
bad bad-noise 'FAIL .*case: standard error is not empty'
put bad-none case.in 'x'
bad bad-none 'FAIL .*case: no expected output'
put bad-file case.in 'x'
put bad-file case.out 'x'
put bad-file case.otu 'x'
bad bad-file 'FAIL .*case.otu: no part of a case'
put bad-journal case.args 'keep {journal}'
put bad-journal case.out '1\n'
put bad-journal case.after.clear.hex '00'
bad bad-journal 'FAIL .*case: clear.journal after the run'
put bad-unmade case.args 'there {journal}'
put bad-unmade case.out 'there\n'
put bad-unmade case.after.depot.hex '00'
bad bad-unmade 'FAIL .*case: depot.journal is not there'
put bad-folder case.args 'words'
put bad-folder case.out 'words\n'
put bad-folder case.before.clear.hex '00'
bad bad-folder 'FAIL .*case: journal files, but no'
put bad-hex case.args 'keep {journal}'
put bad-hex case.out '1\n'
put bad-hex case.before.clear.hex '0x00'
bad bad-hex 'FAIL .*case: case.before.clear.hex is not hexadecimal'
put bad-pad case.in 'long'
put bad-pad case.pad '3'
put bad-pad case.out 'long'
bad bad-pad 'FAIL .*case: case.pad'
put bad-rule case.in 'x'
put bad-rule case.out 'x'
put bad-rule case.rule 'any'
bad bad-rule "FAIL .*case: unknown rule 'any'"
put bad-shaken case.args 'shaken odd'
put bad-shaken case.rule 'last-report-shaken'
put bad-shaken case.out 'REPORT cycle none\nBAL 0\nEND\n'
bad bad-shaken 'FAIL .*case: last report .--shake 77'
put bad-members case.args 'lot 0003 0002 swapped'
put bad-members case.rule 'members-in-any-order'
put bad-members case.out 'lot 1 poured 20 longs 2\nticket 0002 start 0 asked 10\nticket 0003 start 10 asked 10\nclose granted 20\norder 2 DELIVERY 0002 037833100 10\norder 3 DELIVERY 0003 037833100 10\n'
bad bad-members 'FAIL .*case: standard output .members'
put bad-member case.args 'lot 0003 0003'
put bad-member case.rule 'members-in-any-order'
put bad-member case.out 'lot 1 poured 20 longs 2\nticket 0002 start 0 asked 10\nticket 0003 start 10 asked 10\nclose granted 20\norder 2 DELIVERY 0002 037833100 10\norder 3 DELIVERY 0003 037833100 10\n'
bad bad-member 'FAIL .*case: standard output .members'
put bad-time case.args 'sleep'
put bad-time case.out ''
bad bad-time 'FAIL .*case: no end within 2 seconds'

# expect WHAT STATUS LAST OUTPUT-PATTERN COMMAND..: runs the command.
expect() {
    local what=$1 status=$2 last=$3 pattern=$4 got
    shift 4
    "$@" >"$work/said" 2>"$work/told"
    got=$?
    if ((got != status)) || [[ $(tail -n 1 "$work/said") != "$last" ]] || ! grep -q -- "$pattern" "$work/said"; then
        wrong=$((wrong + 1))
        printf 'WRONG %s: status %s, expected %s\n' "$what" "$got" "$status"
        cat "$work/said" "$work/told"
    else
        passed=$((passed + 1))
    fi
}

export CASE_SECONDS=2
expect 'good cases' 0 '22 passed, 0 failed' 'passed' "$here/run_cases.sh" "$work/program" "$work/good" "$work/other/"
for one in "${reasons[@]}"; do
    folder=${one%%|*}
    last='0 passed, 1 failed'
    [[ $folder == bad-file ]] && last='1 passed, 1 failed'
    expect "$folder" 1 "$last" "${one#*|}" "$here/run_cases.sh" "$work/program" "$work/$folder"
done
expect 'no folder' 1 '0 passed, 1 failed' 'no such folder' "$here/run_cases.sh" "$work/program" "$work/nowhere"
mkdir "$work/empty"
expect 'no cases' 1 '0 passed, 0 failed' 'passed' "$here/run_cases.sh" "$work/program" "$work/empty"
expect 'no program' 1 '0 passed, 0 failed' 'passed' "$here/run_cases.sh" "$work/nothing" "$work/good"
expect 'no words' 1 '0 passed, 0 failed' 'passed' "$here/run_cases.sh"

printf '%d passed, %d failed\n' "$passed" "$wrong"
((wrong == 0 && passed > 0))
