#!/usr/bin/env bash
# Runs folders of cases with a program and compares what it writes.
#
#   tests/run_cases.sh PROGRAM FOLDER..
#
# Each failure gets a line and a short difference. The last line is
# `N passed, M failed`. The exit status is 0 where nothing failed and something
# passed, else 1.
#
# A case NAME is a set of files that stand in one folder:
#
#   NAME.in             standard input (none: empty)
#   NAME.out, .out2 ..  the lawful standard outputs, one of which must be written
#   NAME.args           arguments, words between blanks (none: `run`);
#                         {journal}    a new folder
#                         {journal:K}  a folder that the cases of this folder share
#                                      that name K; cases run in the order of names
#                         {missing}    a path that is not there
#   NAME.status         exit status (none: 0)
#   NAME.err            standard error (none: it is empty where the exit status
#                         is to be 0, and not compared otherwise)
#   NAME.pad            a number: the input is filled up with `#` to so many bytes
#   NAME.before.clear.hex, NAME.before.depot.hex
#                       the files clear.journal and depot.journal of the journal
#                         folder before the run, as hexadecimal digits
#   NAME.after.clear.hex, NAME.after.depot.hex
#                       the same two files after the run
#   NAME.rule           another way to compare standard output:
#                         last-report-shaken    the program runs with `--shake 0`
#                                               to `--shake 99` added; each time
#                                               the last report is NAME.out
#                         members-in-any-order  as NAME.out, but the members of a
#                                               lot's tickets in any order, and its
#                                               delivery orders in that same order
#
# A file whose name ends with `.md` is no part of a case. Any other file is a
# failure, so that a misspelt name can't hide a case.
# CASE_SECONDS is the time that a run may take (60 where it is not set).

set -u -f
export LC_ALL=C

limit=${CASE_SECONDS:-60}
source "$(dirname "${BASH_SOURCE[0]}")/count.sh" || exit 1

# fail_case NAME WHAT: one failure, with the lines of the file `why` behind it.
fail_case() {
    fail "$1" "$2"
    while IFS= read -r line; do printf '    %s\n' "$line"; done <"$work/why"
    : >"$work/why"
}

# same FILE FILE: whether two files hold the same bytes.
same() {
    [[ $(stat -c %s "$1") == "$(stat -c %s "$2")" && $(sha256sum <"$1") == "$(sha256sum <"$2")" ]]
}

# shown TEXT: one line as it can be printed, cut off where it is long.
shown() {
    local text=$1
    ((${#text} > 160)) && text="${text:0:160}.."
    if [[ $text == *[^[:print:]]* ]]; then printf '%q' "$text"; else printf '%s' "$text"; fi
}

# differ EXPECTED WRITTEN: where two files first differ, three lines of each.
differ() {
    local want got at i
    mapfile -t want < <(tr '\0' '?' <"$1")
    mapfile -t got < <(tr '\0' '?' <"$2")
    at=0
    while ((at < ${#want[@]} && at < ${#got[@]})) && [[ ${want[at]} == "${got[at]}" ]]; do
        at=$((at + 1))
    done
    if ((at >= ${#want[@]} && at >= ${#got[@]})); then
        printf 'the lines are the same, the bytes are not: %s expected, %s written\n' \
            "$(stat -c %s "$1")" "$(stat -c %s "$2")"
        return
    fi
    printf 'line %d of %d expected, %d written\n' "$((at + 1))" "${#want[@]}" "${#got[@]}"
    for ((i = at; i < at + 3 && i < ${#want[@]}; i++)); do printf -- '- %s\n' "$(shown "${want[i]}")"; done
    for ((i = at; i < at + 3 && i < ${#got[@]}; i++)); do printf -- '+ %s\n' "$(shown "${got[i]}")"; done
}

# digits_of FILE: the hexadecimal digits of a .hex file without blanks.
digits_of() {
    local text
    text=$(tr -d ' \t\r\n' <"$1" | tr 'A-F' 'a-f')
    [[ $text != *[^0-9a-f]* ]] && ((${#text} % 2 == 0)) && printf '%s' "$text"
}

# bytes_of DIGITS: the bytes that hexadecimal digits stand for.
bytes_of() {
    printf '%b' "$(sed 's/../\\x&/g' <<<"$1")"
}

# hex_of FILE: the bytes of a file as hexadecimal digits.
hex_of() {
    od -An -v -tx1 "$1" | tr -d ' \n'
}

# last_report FILE: the lines from the last `REPORT cycle` to its `END`.
last_report() {
    local line text='' open=no
    while IFS= read -r line; do
        [[ $line == 'REPORT cycle '* ]] && text='' open=yes
        [[ $open == yes ]] && text+=$line$'\n'
        [[ $line == END ]] && open=no
    done <"$1"
    printf '%s' "$text"
}

# without_members FILE: the text with `*` for the member of each ticket and of
# each delivery order that is the next ticket's; behind each lot its members.
without_members() {
    local line words place=0 tickets=()
    while IFS= read -r line || [[ -n $line ]]; do
        read -ra words <<<"$line"
        case $line in
        'lot '*)
            ((${#tickets[@]} > 0)) && printf 'members %s\n' "$(printf '%s\n' "${tickets[@]}" | sort | tr '\n' ' ')"
            tickets=()
            place=0
            ;;
        'ticket '*)
            tickets+=("${words[1]-}")
            line="ticket * ${words[*]:2}"
            ;;
        'order '*' DELIVERY '*)
            if [[ ${words[3]-} == "${tickets[place]-}" ]]; then
                line="order ${words[1]} DELIVERY * ${words[*]:4}"
                place=$((place + 1))
            fi
            ;;
        esac
        printf '%s\n' "$line"
    done <"$1"
    ((${#tickets[@]} > 0)) && printf 'members %s\n' "$(printf '%s\n' "${tickets[@]}" | sort | tr '\n' ' ')"
}

# run_program ARGUMENT..: one run; its streams in the files out and err, its
# exit status in `status`.
run_program() {
    timeout -k 5 "$limit" "$program" "$@" <"$input" >"$work/out" 2>"$work/err"
    status=$?
}

# streams_right: whether exit status and standard error are those of the case;
# else `what` says which is not.
streams_right() {
    if ((status == 124 || status == 137)) && ((want_status != status)); then
        what="no end within $limit seconds"
        return 1
    fi
    if ((status != want_status)); then
        what="exit status $status, expected $want_status"
        head -c 600 "$work/err" | tr '\0' '?' >"$work/why"
        return 1
    fi
    if [[ -e $base.err ]]; then
        same "$base.err" "$work/err" && return 0
        what='standard error'
        differ "$base.err" "$work/err" >"$work/why"
        return 1
    fi
    if ((want_status == 0)) && [[ -s $work/err ]]; then
        what='standard error is not empty'
        head -c 600 "$work/err" | tr '\0' '?' >"$work/why"
        return 1
    fi
    return 0
}

# output_right: whether standard output is a lawful one of the case.
output_right() {
    local file
    for file in "${outputs[@]}"; do
        same "$base.$file" "$work/out" && return 0
    done
    what='standard output'
    differ "$base.${outputs[0]}" "$work/out" >"$work/why"
    return 1
}

# run_case: the case of `folder`, `name`, `base`, `outputs`. Answers 1 with
# `what` (and the file `why`) where it fails.
run_case() {
    local rule='' journal='' words=() args=() word key side digits shake
    if ((${#outputs[@]} == 0)); then
        what="no expected output ($name.out)"
        return 1
    fi
    want_status=0
    if [[ -e $base.status ]]; then
        read -r want_status <"$base.status"
        if [[ ! $want_status =~ ^[0-9]+$ ]]; then
            what="$name.status is no number"
            return 1
        fi
    fi
    [[ -e $base.rule ]] && read -r rule <"$base.rule"

    # The arguments, with the journal's folder.
    words=(run)
    [[ -e $base.args ]] && words=($(<"$base.args"))
    for word in "${words[@]+"${words[@]}"}"; do
        if [[ $word =~ \{journal:([^}]*)\} ]]; then
            key=${BASH_REMATCH[1]}
            journal=$work/shared-$folder_number-$key
            mkdir -p "$journal"
            word=${word//"{journal:$key}"/"$journal"}
        elif [[ $word == *'{journal}'* ]]; then
            [[ -n $journal ]] || journal=$(mktemp -d "$work/journal-XXXXXX")
            word=${word//'{journal}'/"$journal"}
        fi
        word=${word//'{missing}'/"$work/missing/folder"}
        args+=("$word")
    done

    # The journal files before the run.
    for side in clear depot; do
        if [[ -e $base.before.$side.hex || -e $base.after.$side.hex ]] && [[ -z $journal ]]; then
            what="journal files, but no {journal} in $name.args"
            return 1
        fi
        if [[ -e $base.before.$side.hex ]]; then
            if ! digits=$(digits_of "$base.before.$side.hex"); then
                what="$name.before.$side.hex is not hexadecimal"
                return 1
            fi
            bytes_of "$digits" >"$journal/$side.journal"
        fi
    done

    # The input.
    input=/dev/null
    [[ -e $base.in ]] && input=$base.in
    if [[ -e $base.pad ]]; then
        local size pad
        read -r pad <"$base.pad"
        cat "$input" >"$work/in"
        size=$(stat -c %s "$work/in")
        if [[ ! $pad =~ ^[0-9]+$ ]] || ((pad < size)); then
            what="$name.pad is no number, or less than the $size bytes of the input"
            return 1
        fi
        head -c "$((pad - size))" /dev/zero | tr '\0' '#' >>"$work/in"
        input=$work/in
    fi

    case $rule in
    '')
        run_program "${args[@]+"${args[@]}"}"
        streams_right && output_right || return 1
        ;;
    last-report-shaken)
        last_report "$base.${outputs[0]}" >"$work/want"
        for ((shake = 0; shake < 100; shake++)); do
            run_program "${args[@]+"${args[@]}"}" --shake "$shake"
            streams_right || {
                what+=" (--shake $shake)"
                return 1
            }
            last_report "$work/out" >"$work/got"
            if [[ ! -s $work/want ]] || ! same "$work/want" "$work/got"; then
                what="last report (--shake $shake)"
                differ "$work/want" "$work/got" >"$work/why"
                return 1
            fi
        done
        ;;
    members-in-any-order)
        run_program "${args[@]+"${args[@]}"}"
        streams_right || return 1
        without_members "$base.${outputs[0]}" >"$work/want"
        without_members "$work/out" >"$work/got"
        if ! same "$work/want" "$work/got"; then
            what='standard output (members in any order)'
            differ "$work/want" "$work/got" >"$work/why"
            return 1
        fi
        ;;
    *)
        what="unknown rule '$rule'"
        return 1
        ;;
    esac

    # The journal files after the run.
    for side in clear depot; do
        [[ -e $base.after.$side.hex ]] || continue
        if ! digits=$(digits_of "$base.after.$side.hex"); then
            what="$name.after.$side.hex is not hexadecimal"
            return 1
        fi
        if [[ ! -e $journal/$side.journal ]]; then
            what="$side.journal is not there after the run"
            return 1
        fi
        if [[ $digits != "$(hex_of "$journal/$side.journal")" ]]; then
            what="$side.journal after the run"
            printf -- '- %s\n+ %s\n' "$(shown "$digits")" "$(shown "$(hex_of "$journal/$side.journal")")" >"$work/why"
            return 1
        fi
    done
    return 0
}

if (($# < 2)); then
    printf 'usage: %s PROGRAM FOLDER..\n' "$0" >&2
    say_end
fi
program=$1
shift
if [[ $program == */* && ! -x $program ]] || ! command -v "$program" >/dev/null; then
    printf 'no program %s\n' "$program" >&2
    say_end
fi

: >"$work/why"
folder_number=0
for folder in "$@"; do
    folder=${folder%/}
    folder_number=$((folder_number + 1))
    if [[ ! -d $folder ]]; then
        fail_case "$folder" 'no such folder'
        continue
    fi

    # The names of the cases, in the order of their bytes.
    unset known
    declare -A known=()
    mapfile -t files < <(cd "$folder" && ls -A | sort)
    for file in "${files[@]}"; do
        [[ -f $folder/$file ]] || continue
        case $file in
        ?*.before.clear.hex | ?*.before.depot.hex | ?*.after.clear.hex | ?*.after.depot.hex)
            known[${file%.*.*.hex}]=yes
            ;;
        ?*.in | ?*.out | ?*.args | ?*.status | ?*.err | ?*.pad | ?*.rule) known[${file%.*}]=yes ;;
        ?*.out[2-9] | ?*.out[1-9][0-9]) known[${file%.*}]=yes ;;
        *.md) ;;
        *) fail_case "$folder/$file" 'no part of a case' ;;
        esac
    done
    names=()
    ((${#known[@]} > 0)) && mapfile -t names < <(printf '%s\n' "${!known[@]}" | sort)

    for name in "${names[@]+"${names[@]}"}"; do
        base=$folder/$name
        outputs=()
        [[ -e $base.out ]] && outputs+=(out)
        for ((place = 2; place < 100; place++)); do
            [[ -e $base.out$place ]] && outputs+=("out$place")
        done
        what=''
        if run_case; then
            passed=$((passed + 1))
        else
            fail_case "$base" "$what"
        fi
    done
done
say_end
