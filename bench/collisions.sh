#!/usr/bin/env bash
# collisions.sh PROGRAM [BITS..]: the time of `TAKE ALL` over 1,000,000 trades whose ids' hashes end in so many zero
# bits (0, 4 and 8, where none are given), which whoever writes an input can choose (colliding_ids.c).
set -eu
here=$(cd "$(dirname "$0")" && pwd)
program=$1
shift
work=$(mktemp -d)
trap 'rm -rf "$work"' EXIT
"${CC:-cc}" -O2 -o "$work/ids" "$here/colliding_ids.c"
echo '| zero bits | choosing the ids, seconds | the program, seconds |'
for bits in "${@:-0 4 8}"; do
    for one in $bits; do
        start=${EPOCHREALTIME/./}
        "$work/ids" "$one" 1000000 > "$work/chosen"
        chosen=${EPOCHREALTIME/./}
        {
            printf '[openings]\n[trades]\ntrade,settle,buyer,seller,cusip,quantity\n'
            sed 's/$/,2025-03-04,2,1,037833100,1/' "$work/chosen"
            printf '[script]\nTAKE ALL\n'
        } > "$work/in"
        begun=${EPOCHREALTIME/./}
        "$program" run < "$work/in" > "$work/out"
        ended=${EPOCHREALTIME/./}
        printf '| %d | %d.%d | %d.%d |\n' "$one" $(((chosen - start) / 1000000)) $(((chosen - start) / 100000 % 10)) \
            $(((ended - begun) / 1000000)) $(((ended - begun) / 100000 % 10))
    done
done
