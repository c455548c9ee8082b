#!/usr/bin/env bash
# Tests that a run by stretches, and a day of them, asks the archive a few times and not once a slot, whatever the sheet.
# Usage: tools/few_calls.sh COMMAND    COMMAND: the command linked with c/counted.c
set -euo pipefail
command=$(realpath "$1")
there=$(mktemp -d)
trap 'rm -rf "$there"' EXIT
cd "$there"

# few ROWS SLOTS ARGUMENTS..: not one call a slot; for each stretch, of which there are at most three for each row and one, at most
# forty calls over lists; and these work each slot at most four times.
few() {
    local rows=$1 slots=$2 stretches calls
    shift 2
    "$command" "$@" >out 2>err
    read -r _ single _ calls _ worked <err
    stretches=$(grep -c '^from' out)
    if [ "$single" -ne 0 ] || [ "$stretches" -gt $((3 * rows + 1)) ] || [ "$calls" -gt $((40 * stretches)) ] || [ "$worked" -gt $((4 * slots)) ]; then
        echo "NOT AS IT SHOULD BE: $*: $stretches stretches, $single calls for one slot, $calls calls over lists, $worked slots"
        exit 1
    fi
    echo "few calls: $rows rows, $slots slots: $stretches stretches, $calls calls over lists, which work $worked slots"
}

equal=() && apart=()
for ((row = 0; row < 64; row++)); do
    equal+=("0,15625,1000000,1")
    apart+=("$((15000 * row)),$((9000 + row % 2 * 9000)),1000000,$((row % 2))")
done
"$command" sheet 1 1 0 0,1000000,1000000,1 >one.sheet 2>err
"$command" sheet 1 1 0 "${equal[@]}" >equal.sheet 2>err
"$command" sheet 2 1 0 "${apart[@]}" >apart.sheet 2>err
"$command" sheet 2 1 16 "${apart[@]}" >loading.sheet 2>err
order=$(seq -s , 64 -1 1)
few 1 1000000 run one.sheet --stretches 1000000x1
few 1 2000000 run one.sheet --stretches 2000000x0
few 64 1000000 run equal.sheet --stretches 1000000x1
few 64 1000000 run apart.sheet --stretches --order "$order" 500000x1 500000x2
few 64 2000000 run apart.sheet --stretches --order "$order" 2000000x0
few 64 1000000 run loading.sheet --stretches --order "$order" 500000x1 500000x2
[ "$(grep -c ' (16 loading): ' out)" -eq 64 ] || { echo "NOT AS IT SHOULD BE: not one stretch for each row with its 16 loading slots"; exit 1; }
# The clock at which a promised part is got is looked for by halves: a few calls more for each row that has one.
promised=()
for ((row = 0; row < 64; row++)); do promised+=("$((15000 * row)),18000,1000000,LO,$((9000 + 100 * row))"); done
"$command" sheet 2 1 16 "${promised[@]}" >promised.sheet 2>err
few 64 1000000 run promised.sheet --stretches --order "$order" 500000x1 500000x2
[ "$(grep -c ', promised [0-9]* work units got at clock ' out)" -gt 32 ] || { echo "NOT AS IT SHOULD BE: few promised parts are got"; exit 1; }
# Each sheet of a day has stretches of its own.
"$command" sheet 1 1 0 400000,300000,900000,HI 700000,1,1000000,LO >later.sheet 2>err
"$command" sheet 1 1 0 0,300000,400000,HI >first.sheet 2>err
few 3 2000000 day --stretches first.sheet 400000x1 then later.sheet 1600000x1
[ "$(grep -c '^sheet' out)" -eq 2 ] || { echo "NOT AS IT SHOULD BE: not two sheets"; exit 1; }
