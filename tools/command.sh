#!/usr/bin/env bash
# Tests of the command's words, statuses and places, case by case.
# Usage: tools/command.sh COMMAND MODEL    COMMAND: the program to test; MODEL: the model's program `paper`.
# It ends with how many cases were looked at, and with status 1 if one of them was not as it should be.
set -euo pipefail
# A case at the end of a pipe is counted as others are: it runs in this shell.
shopt -s lastpipe
command=$(realpath "$1")
paper=$(realpath "$2")
root=$(realpath "$(dirname "$0")/..")
there=$(mktemp -d)
trap 'rm -rf "$there"' EXIT
cd "$there"
cp "$root"/samples/*.sheet "$root"/samples/*.csv .

cases=0
wrong=0
complain() {
    wrong=$((wrong + 1))
    echo "NOT AS IT SHOULD BE: $*"
    sed 's/^/    out: /' out
    sed 's/^/    err: /' err
}
# case STATUS OUT ERR ARGUMENTS..: the command ends with this status, standard output and standard error hold these lines
# (fixed text; '' for a stream that is empty, '*' for anything).
case_in=/dev/null
case_is() {
    local status=$1 out=$2 err=$3 got=0
    shift 3
    cases=$((cases + 1))
    "$command" "$@" <"$case_in" >out 2>err || got=$?
    [ "$got" -eq "$status" ] || complain "$*: status $got, not $status"
    holds out "$out" || complain "$*: standard output lacks '$out'"
    holds err "$err" || complain "$*: standard error lacks '$err'"
}
holds() {
    case $2 in
        '') [ ! -s "$1" ] ;;
        '*') true ;;
        *) grep -qxF -- "$2" "$1" ;;
    esac
}
# refusal_is STATUS NUMBER ERR ARGUMENTS..: the same of a refusal by this number. Standard output is empty; plan and judge tell it there as one
# sentence, which is read back.
refusal_is() {
    local status=$1 number=$2 err=$3
    shift 3
    case $1 in
        plan) case_is "$status" '*' "$err" "$@" && tells 1 "$number" "$*" ;;
        judge) case_is "$status" '*' "$err" "$@" && tells 2 "$number" "$*" ;;
        *) case_is "$status" '' "$err" "$@" ;;
    esac
}
# tells KIND NUMBER WORDS: standard output is one line, the sentence of the planner's (1) or the judge's (2) answer with this number.
tells() {
    local told
    told=$("$command" read-sentence --plain out 2>&1) || true
    [ "$(wc -l <out)" -eq 1 ] || complain "$3: not one line"
    [[ $told == "0 $1 $2 "* ]] || complain "$3: not a sentence of number $2"
}
also_out() { holds out "$1" || complain "standard output lacks '$1'"; }
also_err() { holds err "$1" || complain "standard error lacks '$1'"; }
# A sheet from lines; the line ends are written here.
lines() { printf '%s\n' "$@"; }
line() {
    local figure
    for figure in "$@"; do printf '%8s' "$figure"; done
    printf '\n'
}
p1() { cat p1.sheet; }
# Refused alike by everything that takes a sheet: explain on standard output, the others on standard error.
# refused_at FILE NUMBER "ROW FIELD BYTE LINE" PLACE
refused_at() {
    local file=$1 number=$2 place=$4 plain status=2
    local words allowed
    read -r row field byte line_number <<<"$3"
    case_is "$status" "$place" '' explain "$file"
    words=$(grep "^number $number: " out || true)
    [ -n "$words" ] || complain "explain $file: not number $number"
    grep -q '^remedy: ' out || complain "explain $file: no remedy"
    # What is allowed is said of a figure, and of nothing else.
    case $number in 3 | 4 | 5 | 1[1-5]) allowed=1 ;; *) allowed=0 ;; esac
    [ "$(grep -c '^allowed: ' out)" -eq "$allowed" ] || complain "explain $file: not $allowed lines on what is allowed"
    plain=$(printf '%8s%8s%8s%8s%8s' "$number" "$row" "$field" "$byte" "$line_number")
    case_is "$status" "$plain" '' explain --plain "$file"
    refusal_is "$status" "$number" "$place" plan "$file"
    case_is "$status" "$(printf '%8s%8s' "$number" 0)" "$place" plan --plain "$file"
    refusal_is "$status" "$number" "$place" judge "$file" 1
    case_is "$status" '' "$place" finishes "$file"
    case_is "$status" "$(printf '%8s%8s' "$number" 0)" "$place" finishes --plain "$file"
    case_is "$status" '' "$place" report "$file"
    case_is "$status" "$(printf '%8s%8s' "$number" 0)" "$place" report --plain "$file" 1
    case_is "$status" '' "$place" left "$file"
    also_err "$words"
    case_is "$status" "$(printf '%8s%8s' "$number" 0)" "$place" left --plain "$file"
    [ "$(wc -l <out)" -eq 1 ] || complain "left --plain $file: not one line"
    case_is "$status" '' "$place" count "$file"
    also_err "$words"
    case_is "$status" "$(printf '%10s%10s%10s%10s' "$number" 0 0 0)" "$place" count --plain "$file"
    [ "$(wc -l <out)" -eq 1 ] || complain "count --plain $file: not one line"
    case_is "$status" '' "$place" speeds "$file"
    also_err "$words"
    case_is "$status" "$(printf '%8s%8s%8s' "$number" 0 0)" "$place" speeds --plain "$file"
    [ "$(uniq -c out)" = "$(printf '%7s %8s%8s%8s' 2 "$number" 0 0)" ] || complain "speeds --plain $file: not the number in two lines"
    case_is "$status" "$(printf '%8s%8s' "$number" 0)" "$place" speeds --slacks --plain "$file"
    case_is "$status" '' "$place" run "$file" 5
    case_is "$status" '' "$place" day "$file" 5
    case_is "$status" "$(printf '%8s%8s%8s%8s%8s' 1 "$number" 0 0 0)" "$place" day --plain "$file" 5
    case_is "$status" "sheet 2 ($file): refused at clock 11; sheet 1 (p1.sheet) stays as it was" "$place" day p1.sheet 11x5 then "$file" 5
    also_err "sheet 2 ($file) is refused"
    also_err "$words"
    case_is "$status" '' "$place" rows --plain "$file"
    case_is "$status" '' "$place" rows "$file"
    also_err "$words"
}

# ---- orders, yes and no: status 0 and 1 ----
case_is 0 'The planner answers number 0 (an order was made): 6 trials, 4 rows in the order (highest first: 1, 2, 3, 4), 0 rows left.' '' plan p1.sheet
also_out 'place 2: row 2 (LO), slack 2 slots'
also_out 'place 4: row 4 (LO), slack 0 slots'
case_is 0 'place 1: row 3 (HI), slack 0 slots' '' plan p2.sheet
refusal_is 1 7 'number 7: no correct order exists' plan p3.sheet
also_out 'The planner answers number 7 (no correct order exists): 2 trials, 0 rows in the order, 2 rows left (1, 2).'
also_err 'rows left: 1 2'
also_err 'remedy: give the rows left later deadlines, less work, smaller promised parts or fewer waits, the processor more speed, or the table a smaller K'
# What a 7 does not say is said beside it, by everything that plans.
not_said='not looked for: orders that would serve only because runs drop LO rows at their deadlines'
also_err "$not_said"
[ "$(wc -l <err)" -eq 4 ] || complain "plan p3.sheet: not four lines"
case_is 1 '       7       2' 'rows left: 1 2' plan --plain p3.sheet
also_err "$not_said"
case_is 1 'rows left: 1 2' '' explain p3.sheet
also_out "$not_said"
for words in 'finishes p3.sheet' 'report p3.sheet' 'run p3.sheet 5'; do
    # shellcheck disable=SC2086 # several words
    case_is 1 '' "$not_said" $words
done
# No order of this sheet is correct, and yet 1, 2, 3 serves: at G row 2 is dropped at its deadline, and row 3 has the slot after it.
"$command" sheet 2 1 0 0,2,2,HI 0,3,3,LO 0,1,4,HI >serves.sheet
refusal_is 1 7 'rows left: 1 2 3' plan serves.sheet
also_err "$not_said"
case_is 0 'slot 2: row 2, supply 1 work units, got 1 of 3 work units, dropped at clock 3, its deadline' '' run serves.sheet --order 1,2,3 4x1
also_out 'slot 1: row 1, supply 1 work units, got 2 of 2 work units, done at clock 2'
also_out 'slot 3: row 3, supply 1 work units, got 1 of 1 work units, done at clock 4'
case_is 1 'The judge says no (number 0, the order is not correct): tightest row 3, slack -1 slot.' '' judge serves.sheet 1 2 3
also_out 'tightest: row 3 (HI)'
case_is 1 '       7       0       0       0       0' '' explain --plain p3.sheet
also_out '       1'
also_out '       2'
case_is 1 '' 'rows left: 1 2' finishes p3.sheet
case_is 1 '       7       2' 'rows left: 1 2' finishes --plain p3.sheet
case_is 1 '' 'rows left: 1 2' report p3.sheet
also_err 'number 7: no correct order exists'
case_is 1 '       7       2' 'rows left: 1 2' report --plain p3.sheet
case_is 1 '' 'rows left: 1 2' run p3.sheet 5
case_is 0 'number 0: nothing is wrong; the sheet has 4 rows and a correct order' '' explain p1.sheet
case_is 0 '       0       0       0       0       0' '' explain --plain p1.sheet
p1_correct='The judge says yes (number 0, the order is correct): tightest row 1, slack 0 slots.'
case_is 0 "$p1_correct" '' judge p1.sheet 1 2 3 4
also_out 'tightest: row 1 (HI)'
[ "$(wc -l <out)" -eq 2 ] || complain "judge p1.sheet 1 2 3 4: not two lines"
case_is 0 '       0       1       1       0       0' '' judge --plain p1.sheet 1,2,3,4
case_is 1 'The judge says no (number 0, the order is not correct): tightest row 1, slack -10 slots.' '' judge p1.sheet 4,3 2 1
also_out 'tightest: row 1 (HI)'
case_is 1 '       0       0       1       0      10' '' judge p1.sheet 4 3 2 1 --plain
case_is 1 'The judge says no (number 0, the order is not correct): tightest row 2, slack -1 slot.' '' judge p3.sheet 1 2
case_is 0 'row 3 (HI): worst finish 19 slots, deadline 19 slots, slack 0 slots' '' finishes p1.sheet
also_out 'order: 1 2 3 4'
case_is 0 'row 1 (LO): worst finish 1 slot, deadline 2 slots, slack 1 slot' '' finishes p3.sheet 1 2
case_is 0 '       2       5       4       0       1       0' '' finishes --plain p3.sheet 1 2

# ---- an order that is none: 6 ----
no_order='number 6: the order does not name every row once and then only zeros, or has a row above the one that it follows'
each_once='remedy: give each row of the table once, highest place first, each below the row that it follows'
for order in '1 1 3 4' '1 2 3' '1 2 3 4 4' '1 2 3 5' '0 1 2 3 4' '1 2 3 4 0 1' '1 2 3 255' '1 2 3 256' '1 2 3 260' '1 2 3 4294967295'; do
    # shellcheck disable=SC2086 # the order is several words
    refusal_is 2 6 "$no_order" judge p1.sheet $order
    also_err "$each_once"
    [ "$(wc -l <err)" -eq 2 ] || complain "judge p1.sheet $order: not two lines"
    # shellcheck disable=SC2086
    case_is 2 '       6       0' '*' finishes --plain p1.sheet $order
    # shellcheck disable=SC2086
    case_is 2 '' "$no_order" report p1.sheet $order
    also_err "$each_once"
    # shellcheck disable=SC2086
    case_is 2 '       6       0' '*' report --plain p1.sheet $order
    # shellcheck disable=SC2086
    case_is 2 '       6       0' "$no_order" speeds --slacks --plain p1.sheet $order
    [ "$(wc -l <out)" -eq 1 ] || complain "speeds --slacks --plain p1.sheet $order: more than a refusal"
    case_is 2 '' "$no_order" run p1.sheet 5 --order "${order// /,}"
done
case_is 0 "$p1_correct" '' judge p1.sheet 1 2 3 4 0 0

# ---- reports ----
heading() {
    lines 'last line: sum of needs at N (slots), count of rows with slack below 0 slots' \
        '                                   worst' \
        '     place       row need at N    finish     slack' \
        '  (from 1)  (from 1)   (slots)   (slots)   (slots)'
}
# report_is SHEET ROW..: the command writes this report: in its plain form, with the heading above it, and of a sheet from standard input.
# Its figures are taken from standard input.
report_is() {
    local sheet=$1 figures
    shift
    while read -r -a figures; do printf '%10s' "${figures[@]}" && printf '\n'; done >expected
    heading | cat - expected >expected.headed
    case_is 0 '*' '' report --plain "$sheet" "$@"
    cmp -s out expected || complain "report --plain $sheet $*: not the report"
    case_is 0 '*' '' report "$sheet" "$@"
    cmp -s out expected.headed || complain "report $sheet $*: not the report under its heading"
    case_in=$sheet
    case_is 0 '*' '' report - "$@"
    cmp -s out expected.headed || complain "report - $*, from $sheet: not the report under its heading"
    case_in=/dev/null
}
p1_planned=$(lines '1 1 4 10 0' '2 2 3 8 2' '3 3 3 19 0' '4 4 1 5 0' '11 0')
report_is p1.sheet <<<"$p1_planned"
# The names and the units of the columns end where the figures end, with a space or more before each.
sed -n 3,5p out >columns
[ "$(cut -c 10,20,30,40,50 columns | grep -c '^[^ ]\{5\}$')" -eq 3 ] || complain "a name or a unit does not end where its figures end"
[ "$(cut -c 1,11,21,31,41 columns | grep -c '^ \{5\}$')" -eq 3 ] || complain "a name or a unit runs into another column"
report_is p1.sheet 1 2 3 4 <<<"$p1_planned"
report_is p1.sheet 1,2 3,4 0 0 <<<"$p1_planned"
lines '1 4 1 1 4' '2 3 3 11 8' '3 2 3 11 -1' '4 1 4 20 -10' '11 2' | report_is p1.sheet 4 3,2 1
lines '1 1 1 1 1' '2 2 2 5 -1' '3 1' | report_is p3.sheet 1 2
lines '1 2 2 4 0' '2 1 1 3 -1' '3 1' | report_is p3.sheet 2 1
lines '1 2 3 5 2' '2 3 3 10 1' '3 1 5 11 2' '11 0' | report_is loading.sheet
lines '1 1 5 5 8' '2 2 3 9 -2' '3 3 3 13 -2' '11 2' | report_is loading.sheet 1 2 3
# Of the planned order of each sheet: places, rows and slacks are those of plan, worst finishes those of finishes, no row is late, and the
# needs are added up from the sheet: K slots for each row, and its work at N rounded up.
for sheet in p1.sheet p2.sheet rows64.sheet loading.sheet promise.sheet lifting.sheet; do
    case_is 0 '*' '' report --plain "$sheet"
    cp out report
    [ "$(wc -c <report)" -eq $((51 * $(head -c 8 "$sheet") + 21)) ] || complain "report $sheet: $(wc -c <report) bytes"
    head -n -1 report | awk '{ print $1, $2, $5 }' >places
    "$command" plan --plain "$sheet" | awk 'NR > 1 { print $1, $2, $3 }' | cmp -s - places || complain "report $sheet: not the places of plan"
    head -n -1 report | sort -k 2n | awk '{ print $2, $4 }' >worst
    "$command" finishes --plain "$sheet" | awk 'NR > 1 { print $1, $2 }' | cmp -s - worst || complain "report $sheet: not those of finishes"
    needs=$(awk 'NR == 1 { n = $2; k = $4 } NR > 1 { sum += k + int(($2 + n - 1) / n) } END { print sum }' "$sheet")
    [ "$(tail -n 1 report)" = "$(printf '%10s%10s' "$needs" 0)" ] || complain "report $sheet: not $needs slots and no late row"
done

# ---- how much choice there is ----
# count_is STATUS SHEET FIGURES..: what the command says of the correct orders is the text on standard input; of a sheet from standard input
# too; and in figures, each in 10 columns: 0, the row count, the correct orders, the arrangements, then in how many each row stands lowest.
count_is() {
    local status=$1 sheet=$2 row=0 lowest
    shift 2
    cat >expected
    case_is "$status" '*' '' count "$sheet"
    cmp -s out expected || complain "count $sheet: not as it should be"
    case_in=$sheet
    case_is "$status" '*' '' count -
    cmp -s out expected || complain "count -, from $sheet: not as it should be"
    case_in=/dev/null
    printf '%10s%10s%10s%10s\n' 0 "$1" "$2" "$3" >expected
    shift 3
    for lowest in "$@"; do row=$((row + 1)) && printf '%10s%10s\n' "$row" "$lowest" >>expected; done
    case_is "$status" '*' '' count --plain "$sheet"
    cmp -s out expected || complain "count --plain $sheet: not as it should be"
}
count_is 0 p1.sheet 4 1 24 0 0 0 1 <<'COUNT'
1 of 24 arrangements of 4 rows is a correct order
row 1 (HI): lowest in 0 correct orders
row 2 (LO): lowest in 0 correct orders
row 3 (HI): lowest in 0 correct orders
row 4 (LO): lowest in 1 correct order
COUNT
count_is 0 p2.sheet 4 2 24 0 0 0 2 <<'COUNT'
2 of 24 arrangements of 4 rows are correct orders
row 1 (LO): lowest in 0 correct orders
row 2 (HI): lowest in 0 correct orders
row 3 (HI): lowest in 0 correct orders
row 4 (LO): lowest in 2 correct orders
COUNT
# No correct order: status 1 as where plan answers 7, and plan is named for the rows left.
count_is 1 p3.sheet 2 0 2 0 0 <<'COUNT'
0 of 2 arrangements of 2 rows are correct orders
no order is correct: 'jasminebrace plan SHEET' says which rows are left, and what to do
COUNT
# Rows that follow rows are named so. Without the waits there are more correct orders.
count_is 0 lifting.sheet 4 1 24 0 0 1 0 <<'COUNT'
1 of 24 arrangements of 4 rows is a correct order
row 1 (HI): lowest in 0 correct orders
row 2 (HI, follows row 1): lowest in 0 correct orders
row 3 (LO, follows row 2): lowest in 1 correct order
row 4 (HI): lowest in 0 correct orders
COUNT
# A row alone: in time, and late.
"$command" sheet 1 1 0 0,1,1,LO >alone.sheet
count_is 0 alone.sheet 1 1 1 1 <<'COUNT'
1 of 1 arrangement of 1 row is a correct order
row 1 (LO): lowest in 1 correct order
COUNT
"$command" sheet 1 1 0 0,2,1,HI >late.sheet
count_is 1 late.sheet 1 0 1 0 <<'COUNT'
0 of 1 arrangement of 1 row are correct orders
no order is correct: 'jasminebrace plan SHEET' says which rows are left, and what to do
COUNT
# With loading, promised parts and waits too, what is counted is the arrangements to which judge says yes.
judged_orders() { # SHEET ROW..: how many arrangements of these rows the judge says yes to
    local sheet=$1
    shift
    python3 -c 'import itertools, sys; print(*(",".join(order) for order in itertools.permutations(sys.argv[1:])), sep="\n")' "$@" |
        while read -r order; do "$command" judge "$sheet" "$order" 2>err | sed -n 's/^The judge says yes .*/yes/p' || true; done | wc -l
}
for sheet in loading.sheet promise.sheet lifting.sheet second.sheet p2.sheet; do
    read -r rows _ <"$sheet"
    # shellcheck disable=SC2046 # several words
    counted=$(judged_orders "$sheet" $(seq 1 "$rows"))
    case_is 0 '*' '' count --plain "$sheet"
    [ "$(awk 'NR == 1 { print $3 }' out)" -eq "$counted" ] || complain "count $sheet: judge says yes to $counted orders"
    [ "$(awk 'NR > 1 { sum += $2 } END { print sum }' out)" -eq "$counted" ] || complain "count $sheet: lowest rows are not $counted together"
done
# Twelve rows with time wherever they stand: all orders, 12 * 11 * ... * 1 of them, each row lowest in a twelfth of them.
twelve=() && for ((row = 1; row <= 12; row++)); do twelve+=('0,1,12,LO'); done
"$command" sheet 1 1 0 "${twelve[@]}" >twelve.sheet
{
    echo '479001600 of 479001600 arrangements of 12 rows are correct orders'
    for ((row = 1; row <= 12; row++)); do echo "row $row (LO): lowest in 39916800 correct orders"; done
} >expected.twelve
# shellcheck disable=SC2046 # several words
count_is 0 twelve.sheet 12 479001600 479001600 $(for ((row = 1; row <= 12; row++)); do echo 39916800; done) <expected.twelve
# Thirteen rows are refused with 20, which says how many there are and how many are counted, and that the sheet is fine otherwise.
"$command" sheet 1 1 0 "${twelve[@]}" 0,1,13,LO >thirteen.sheet
case_is 2 '' 'number 20: the table has more than 12 rows, too many to count its correct orders' count thirteen.sheet
also_err 'where: first line, row count n, byte 1 (line 1, byte 1 of it): the figure is 13'
also_err 'allowed: 1 to 12 rows, to be counted; the sheet is accepted otherwise'
also_err 'remedy: count at most 12 rows, such as a part of the sheet by itself; planning and judging take up to 64 rows'
[ "$(wc -l <err)" -eq 4 ] || complain "count thirteen.sheet: not four lines"
case_is 2 '        20         0         0         0' 'where: first line, row count n, byte 1 (line 1, byte 1 of it): the figure is 13' count --plain thirteen.sheet
[ "$(wc -l <out)" -eq 1 ] || complain "count --plain thirteen.sheet: not one line"
case_is 0 '*' '' plan thirteen.sheet
case_is 2 '' 'where: first line, row count n, byte 1 (line 1, byte 1 of it): the figure is 64' count rows64.sheet
# What is wrong with a sheet of thirteen rows is said before 20.
sed '14s/       0$/      13/' thirteen.sheet >thirteen-itself.sheet
case_is 2 '' 'number 13: a row follows what is not a row above it in the table' count thirteen-itself.sheet
also_err 'where: row 13, followed row, byte 662 (line 14, byte 41 of it): the figure is 13, which is the row itself'
sed 's/$/\r/' p1.sheet >returns.sheet
case_is 2 '' 'where: first line, line end, byte 33 (line 1, byte 33 of it): a carriage return (byte 13) where the line end (byte 10) belongs' count returns.sheet
# A sentence tells 20 as any other number.
echo 'The planner answers number 20 (refused: the table has more rows than can be counted): 0 trials, 0 rows in the order, 0 rows left.' >twenty.sentence
case_is 0 'number 20: the table has more than 12 rows, too many to count its correct orders' '' read-sentence twenty.sentence

# ---- what the rows left tell ----
meant='meaning: as long as all of these rows, N, G and K stay as they are, no order is correct, whatever is done with other rows'
to_do='to be done: at least one of these rows has to go or to change, or N, G or K; it is not said which, nor that one is enough'
others='the other rows alone: a correct order exists'
# left_is SHEET FIGURES..: what the command left says of the rows left of a sheet without a correct order is the text on standard input, and in
# figures a line for each of these words: ROW FINISH DEADLINE SPARE SHORT PROMISED FOLLOWER, in slots but for rows.
left_is() {
    local sheet=$1 words figures
    shift
    cat >expected
    case_is 1 '*' '' left "$sheet"
    cmp -s out expected || complain "left $sheet: not as it should be"
    case_in=$sheet
    case_is 1 '*' '' left -
    cmp -s out expected || complain "left -, from $sheet: not as it should be"
    case_in=/dev/null
    case_is 1 '*' 'number 7: no correct order exists' left --plain "$sheet"
    { line 7 $#; for words in "$@"; do read -r -a figures <<<"$words" && line "${figures[@]}"; done; } >expected.plain
    cmp -s out expected.plain || complain "left --plain $sheet: not as it should be"
    left_is_judged "$sheet" "$@"
}
# Each of these figures is that of finishes without waits: the other rows left above the row, and the rest below it.
left_is_judged() {
    local sheet=$1 rows row order words
    shift
    rows=$(for words in "$@"; do echo "${words%% *}"; done)
    sed '2,$s/.\{8\}$/       0/' "$sheet" >no-waits.sheet
    for words in "$@"; do
        row=${words%% *}
        order=$({ grep -vx "$row" <<<"$rows" || true; echo "$row"; seq 1 "$(head -c 8 "$sheet")" | grep -vxF "$rows" || true; } | paste -sd ,)
        # shellcheck disable=SC2086 # six words
        case_is 0 "$(printf '%8s%8s%8s%8s%8s%8s' ${words% *})" '' finishes --plain no-waits.sheet "$order"
    done
}
lines 'rows left: 1 2' 'row 1: 1 slot short with all other rows left above it' 'row 2: 1 slot short with all other rows left above it' \
    "$meant" "$to_do" | left_is p3.sheet '1 3 2 0 1 0 0' '2 5 4 0 1 0 0'
# Rows 1 and 5 are not left. Row 2 has slots to spare, and cannot stand lowest.
lines 'rows left: 2 3 4' \
    'row 2: 2 slots to spare with all other rows left above it, but row 3 follows it, so it cannot stand lowest' \
    'row 3: 3 slots short with all other rows left above it' 'row 4: 1 slot short with all other rows left above it' \
    "$meant" "$to_do" "$others" | left_is stuck.sheet '2 10 12 2 0 0 3' '3 10 7 0 3 0 0' '4 10 9 0 1 0 0'
# Cutting elsewhere never helps; without all rows left there is an order. Of the rows left alone one is enough and another is not, and it is not
# the one that lacks the fewest slots.
cut_rows() { "$command" rows stuck.sheet | sed "$1" | "$command" sheet - >cut.sheet; } # lines of the rows file that go: row 1 stands in line 4
cut_rows 8d
lines 'rows left: 2 3 4' \
    'row 2: 2 slots to spare with all other rows left above it, but row 3 follows it, so it cannot stand lowest' \
    'row 3: 3 slots short with all other rows left above it' 'row 4: 1 slot short with all other rows left above it' \
    "$meant" "$to_do" "${others/rows/row}" | left_is cut.sheet '2 10 12 2 0 0 3' '3 10 7 0 3 0 0' '4 10 9 0 1 0 0'
cut_rows 5,7d
case_is 0 'no row is left: the sheet has 2 rows and a correct order' '' left cut.sheet
cut_rows 7d
case_is 1 'rows left: 2 3' '' left cut.sheet
also_out 'row 3: 1 slot short with all other rows left above it'
for one in 6d '5d; 6s/2$/0/'; do
    cut_rows "$one"
    case_is 0 'no row is left: the sheet has 4 rows and a correct order' '' left cut.sheet
done
# Several followers, of a row with slots to spare, and two of a row that is short itself; 0 slots to spare.
"$command" sheet 1 1 0 0,1,9,LO 0,1,1,LO,0,1 0,1,1,LO,0,1 0,1,2,LO,0,1 0,1,99,HI >followed.sheet
lines 'rows left: 1 2 3 4' \
    'row 1: 5 slots to spare with all other rows left above it, but rows 2, 3 and 4 follow it, so it cannot stand lowest' \
    'row 2: 3 slots short with all other rows left above it' 'row 3: 3 slots short with all other rows left above it' \
    'row 4: 2 slots short with all other rows left above it' "$meant" "$to_do" "${others/rows/row}" |
    left_is followed.sheet '1 4 9 5 0 0 2' '2 4 1 0 3 0 0' '3 4 1 0 3 0 0' '4 4 2 0 2 0 0'
"$command" sheet 1 1 0 0,1,2,HI 0,1,1,LO,0,1 0,1,3,HI,0,1 0,1,3,HI,0,3 >followed.sheet
lines 'rows left: 1 2 3 4' \
    'row 1: 2 slots short with all other rows left above it; rows 2 and 3 follow it, so it cannot stand lowest' \
    'row 2: 3 slots short with all other rows left above it' \
    'row 3: 1 slot short with all other rows left above it; row 4 follows it, so it cannot stand lowest' \
    'row 4: 1 slot short with all other rows left above it' "$meant" "$to_do" |
    left_is followed.sheet '1 4 2 0 2 0 2' '2 4 1 0 3 0 0' '3 4 3 0 1 0 4' '4 4 3 0 1 0 0'
"$command" sheet 1 1 0 0,1,2,LO 0,1,1,LO,0,1 >followed.sheet
case_is 1 'row 1: 0 slots to spare with all other rows left above it, but row 2 follows it, so it cannot stand lowest' '' left followed.sheet
# One row left, with others and without; with a promised part that comes too late where the row is in time, and where it is late too.
one_meant=${meant/all of these rows/this row}
one_to_do='to be done: this row has to go or to change, or N, G or K'
"$command" sheet 1 1 0 0,3,1,HI >only.sheet
lines 'rows left: 1' 'row 1: 2 slots short by itself' "$one_meant" "$one_to_do" | left_is only.sheet '1 3 1 0 2 0 0'
"$command" sheet 5 1 0 0,1,300,HI 0,100,20,LO,90 0,1,400,LO >only.sheet
lines 'rows left: 2' 'row 2: 70 slots short by itself, for its promised part' "$one_meant" "$one_to_do" 'the other rows alone: a correct order exists' |
    left_is only.sheet '2 20 20 0 70 90 0'
# Both levels, loading, and promised parts that decide.
"$command" sheet 4 2 1 0,12,9,LO,12 0,16,8,LO,2 0,8,9,HI 0,4,60,LO >levels.sheet
lines 'rows left: 1 2 3' 'row 1: 8 slots short with all other rows left above it, for its promised part' \
    'row 2: 6 slots short with all other rows left above it, for its promised part' \
    'row 3: 8 slots short with all other rows left above it' \
    "$meant" "$to_do" "${others/rows/row}" | left_is levels.sheet '1 12 9 0 8 17 0' '2 12 8 0 6 14 0' '3 17 9 0 8 0 0'
# A promised part that does not decide, of a row whose worst finish is later.
"$command" sheet 4 4 0 0,12,2,LO,4 >only.sheet
lines 'rows left: 1' 'row 1: 1 slot short by itself' "$one_meant" "$one_to_do" | left_is only.sheet '1 3 2 0 1 1 0'
# The largest figures: 64 rows, all left.
largest=() && figures=() && for ((row = 1; row <= 64; row++)); do largest+=('999999,1000000,1000000,HI') && figures+=("$row 65001023 1000000 0 64001023 0 0"); done
"$command" sheet 1 1 16 "${largest[@]}" >largest.sheet
{
    echo "rows left: $(seq -s ' ' 64)"
    for ((row = 1; row <= 64; row++)); do echo "row $row: 64001023 slots short with all other rows left above it"; done
    lines "$meant" "$to_do"
} | left_is largest.sheet "${figures[@]}"
# No row is left where there is an order.
for sheet in p1.sheet alone.sheet rows64.sheet lifting.sheet; do
    read -r rows _ <"$sheet"
    case_is 0 "no row is left: the sheet has $rows $([ "$rows" -eq 1 ] && echo row || echo rows) and a correct order" '' left "$sheet"
    [ "$(wc -l <out)" -eq 1 ] || complain "left $sheet: not one line"
    case_is 0 "$(line 0 0)" '' left --plain "$sheet"
    [ "$(wc -l <out)" -eq 1 ] || complain "left --plain $sheet: not one line"
done

# ---- least speeds ----
# speeds_are STATUS SHEET: what the command says of the least speeds is the text on standard input; of a sheet from standard input too.
speeds_are() {
    cat >expected
    case_is "$1" '*' '' speeds "$2"
    cmp -s out expected || complain "speeds $2: not as it should be"
    case_in=$2
    case_is "$1" '*' '' speeds -
    cmp -s out expected || complain "speeds -, from $2: not as it should be"
    case_in=/dev/null
}
# plain_speeds_are STATUS SHEET: the same in figures.
plain_speeds_are() {
    local figures
    while read -r -a figures; do line "${figures[@]}"; done >expected
    case_is "$1" '*' '*' speeds --plain "$2"
    cmp -s out expected || complain "speeds --plain $2: not as it should be"
}
speeds_are 0 cooler.sheet <<'SPEEDS'
least degraded speed, with N = 20 work units per slot: G = 19 work units per slot
a correct order of 2 rows, highest place first
place 1: row 2 (LO), slack 9 slots
place 2: row 1 (HI), slack 0 slots
least normal speed, with G = 20 work units per slot: N = 20 work units per slot
a correct order of 2 rows, highest place first
place 1: row 2 (LO), slack 9 slots
place 2: row 1 (HI), slack 1 slot
SPEEDS
lines '0 19 2' '1 2 9' '2 1 0' '0 20 2' '1 2 9' '2 1 1' | plain_speeds_are 0 cooler.sheet
# The sheet has no correct order with its own speeds, and does with another of either.
speeds_are 0 p3.sheet <<'SPEEDS'
least degraded speed, with N = 2 work units per slot: G = 2 work units per slot
a correct order of 2 rows, highest place first
place 1: row 1 (LO), slack 1 slot
place 2: row 2 (HI), slack 1 slot
least normal speed, with G = 1 work unit per slot: N = 4 work units per slot
a correct order of 2 rows, highest place first
place 1: row 2 (HI), slack 0 slots
place 2: row 1 (LO), slack 0 slots
SPEEDS
lines '0 2 2' '1 1 1' '2 2 1' '0 4 2' '1 2 0' '2 1 0' | plain_speeds_are 0 p3.sheet
# What the sheet itself has for the speed sought does not matter.
for own in 1 2 18 19 20; do
    { line 2 20 "$own" 0 && tail -n 2 cooler.sheet; } >own.sheet
    status=$([ "$own" -ge 10 ] && echo 0 || echo 1) # below 10 no N is enough for row 1
    case_is "$status" 'least degraded speed, with N = 20 work units per slot: G = 19 work units per slot' '*' speeds own.sheet
    case_is "$status" '       0      19       2' '*' speeds --plain own.sheet
done
for own in 1 3 4 5 1000; do
    { line 2 "$own" 1 0 && tail -n 2 p3.sheet; } >own.sheet
    status=$([ "$own" -gt 1 ] && echo 0 || echo 1) # with N 1 no G is enough
    case_is "$status" 'least normal speed, with G = 1 work unit per slot: N = 4 work units per slot' '*' speeds own.sheet
done
# The ends of both ranges: 1 and N, G and 1,000.
"$command" sheet 30 10 0 0,10,40,1 0,30,100,0 >ends.sheet
case_is 0 'least degraded speed, with N = 30 work units per slot: G = 1 work unit per slot' '' speeds ends.sheet
also_out 'least normal speed, with G = 10 work units per slot: N = 10 work units per slot'
"$command" sheet 40 7 0 0,400,10,1 >ends.sheet
speeds_are 1 ends.sheet <<'SPEEDS'
least degraded speed, with N = 40 work units per slot: G = 40 work units per slot
a correct order of 1 row, highest place first
place 1: row 1 (HI), slack 0 slots
least normal speed, with G = 7 work units per slot: none
number 7: no N from 7 to 1000 work units per slot has a correct order
rows left at N = 1000 work units per slot: 1
remedy: give the rows left later deadlines or less work, or the processor a larger G
SPEEDS
lines '0 40 1' '1 1 0' '7 0 0' | plain_speeds_are 1 ends.sheet
also_err 'number 7: no N from 7 to 1000 work units per slot has a correct order'
! grep -q '^number 7: no G' err || complain "speeds --plain ends.sheet: a G that is there is missed"
"$command" sheet 5 5 0 0,1000,1,0 0,1,9,0 >ends.sheet
speeds_are 1 ends.sheet <<'SPEEDS'
least degraded speed, with N = 5 work units per slot: none
number 7: no G from 1 to 5 work units per slot has a correct order
rows left at G = 5 work units per slot: 1 2
remedy: give the rows left later deadlines or less work, or the processor a larger N
least normal speed, with G = 5 work units per slot: N = 1000 work units per slot
a correct order of 2 rows, highest place first
place 1: row 1 (LO), slack 0 slots
place 2: row 2 (LO), slack 7 slots
SPEEDS
lines '7 0 0' '0 1000 2' '1 1 0' '2 2 7' | plain_speeds_are 1 ends.sheet
# A remedy is one that can help: a larger speed where there is one that is enough, a smaller K where that is, either, or both together.
while IFS='|' read -r words remedy; do
    # shellcheck disable=SC2086 # the words of a sheet
    "$command" sheet $words >remedy.sheet
    case_is 1 "remedy: give the rows left later deadlines or less work$remedy" '' speeds remedy.sheet
done <<'REMEDIES'
5 5 1 0,10,2,0|, the processor a larger N, or the table a smaller K
5 1 1 0,1000,2,1|, or the processor a larger G
5 5 2 0,5,2,0|, or the table a smaller K
5 5 1 0,1001,2,0|, or the processor a larger N and the table a smaller K
3 1 2 0,2000,1,0|
5 5 0 0,1001,1,0|
REMEDIES
# No speed of either range.
"$command" sheet 1000 1000 16 0,1000,16,1 0,9,9,0 >none.sheet
speeds_are 1 none.sheet <<'SPEEDS'
least degraded speed, with N = 1000 work units per slot: none
number 7: no G from 1 to 1000 work units per slot has a correct order
rows left at G = 1000 work units per slot: 1 2
remedy: give the rows left later deadlines or less work, or the table a smaller K
least normal speed, with G = 1000 work units per slot: none
number 7: no N from 1000 to 1000 work units per slot has a correct order
rows left at N = 1000 work units per slot: 1 2
remedy: give the rows left later deadlines or less work, or the table a smaller K
SPEEDS
lines '7 0 0' '7 0 0' | plain_speeds_are 1 none.sheet
also_err 'number 7: no G from 1 to 1000 work units per slot has a correct order'
also_err 'number 7: no N from 1000 to 1000 work units per slot has a correct order'
# The rows left are those at the largest speed of each range; with the sheet's own speeds all three are.
"$command" sheet 10 1 0 0,100,5,1 0,50,30,1 0,60,20,0 >left.sheet
refusal_is 1 7 'rows left: 1 2 3' plan left.sheet
case_is 1 'rows left at G = 10 work units per slot: 1' '' speeds left.sheet
also_out 'rows left at N = 1000 work units per slot: 1 2'
# Of each sample: the orders are those of plan at that speed, and one below it there is none.
at_speeds() { sed "1s/^\(.\{8\}\).\{16\}/\1$(printf '%8s%8s' "$2" "$3")/" "$1"; } # SHEET N G: the sheet with these speeds
for sheet in p1.sheet p2.sheet p3.sheet rows64.sheet loading.sheet cooler.sheet warm.sheet promise.sheet lifting.sheet; do
    read -r rows normal degraded _ <"$sheet"
    case_is 0 '*' '' speeds --plain "$sheet"
    cp out found
    least_degraded=$(awk 'NR == 1 { print $2 }' found)
    least_normal=$(awk -v line=$((rows + 2)) 'NR == line { print $2 }' found)
    head -n $((rows + 1)) found | tail -n +2 >degraded.places
    tail -n "$rows" found >normal.places
    at_speeds "$sheet" "$normal" "$least_degraded" | "$command" plan --plain - | tail -n +2 | cmp -s - degraded.places ||
        complain "speeds $sheet: not the order of plan at G $least_degraded"
    at_speeds "$sheet" "$least_normal" "$degraded" | "$command" plan --plain - | tail -n +2 | cmp -s - normal.places ||
        complain "speeds $sheet: not the order of plan at N $least_normal"
    [ "$least_degraded" -eq 1 ] || { at_speeds "$sheet" "$normal" $((least_degraded - 1)) >less.sheet && refusal_is 1 7 '*' plan less.sheet; }
    [ "$least_normal" -eq "$degraded" ] || { at_speeds "$sheet" $((least_normal - 1)) "$degraded" >less.sheet && refusal_is 1 7 '*' plan less.sheet; }
    # Under the order at the least G: the judge's verdict at each G, yes from the least on.
    order=$(awk '{ printf "%s%s", comma, $2; comma = "," }' degraded.places)
    other=$([ "$sheet" = lifting.sheet ] && echo 1,2,4,3 || seq -s , "$rows" -1 1) # it keeps the waits of that one
    for given in '' "$order" "$other"; do
        taken=${given:-$order}
        case_is 0 "$(line 0 "$rows")" '' speeds --slacks --plain "$sheet" ${given:+"$given"}
        cp out plain
        [ "$(wc -l <plain)" -eq $((1 + rows + normal)) ] || complain "speeds --slacks $sheet $given: not a line for each place and each G"
        tr ',' '\n' <<<"$taken" | awk '{ printf "%8d%8d\n", NR, $1 }' >expected
        head -n $((rows + 1)) plain | tail -n +2 | cmp -s - expected || complain "speeds --slacks $sheet $given: another order"
        case_is 0 "order: ${taken//,/ }" '' speeds --slacks "$sheet" ${given:+"$given"}
        tail -n +2 out >said
        for speed in 1 "$least_degraded" "$normal"; do
            at_speeds "$sheet" "$normal" "$speed" >one.sheet
            "$command" judge --plain one.sheet "$taken" >judged || true
            sed "s/^.\{16\}/$(printf '%8s' "$speed")/" judged >judged.slack
            tail -n +$((rows + 1 + speed)) plain | head -n 1 | cmp -s - judged.slack || complain "speeds --slacks $sheet $given: not the judge's at G $speed"
            { "$command" judge one.sheet "$taken" || true; } |
                sed -n 's/^The judge says .*, the order is \(.*\)): tightest row \(.*\), slack \(.*\)\.$/\1, least slack: row \2, \3/p' >judged
            sed -n "${speed}s/^G = $speed work units* per slot: //p" said | sed 's/ ([HL][IO]),/,/' | cmp -s - judged || complain "speeds --slacks $sheet $given: not the judge's words at G $speed"
        done
        if [ "$taken" = "$order" ]; then
            [ "$(grep -n -m 1 ': correct, ' said | cut -d : -f 1)" -eq "$least_degraded" ] || complain "speeds --slacks $sheet: not correct from G $least_degraded on"
            [ "$(grep -c ': correct, ' said)" -eq $((normal - least_degraded + 1)) ] || complain "speeds --slacks $sheet: correct, and then not"
        fi
    done
done
case_is 1 '' 'number 7: no G from 1 to 1000 work units per slot has a correct order' speeds --slacks none.sheet
also_err 'rows left at G = 1000 work units per slot: 1 2'
case_is 1 '       7       2' 'rows left at G = 1000 work units per slot: 1 2' speeds --slacks --plain none.sheet
case_is 0 'G = 1 work unit per slot: not correct, least slack: row 1 (HI), -1017 slots' '' speeds --slacks none.sheet 2 1

# ---- runs ----
case_is 0 'slot 0: row 1, supply 1 work units, got 1 of 2 work units, dropped at clock 1, its slots used up' '' run p3.sheet --order 1,2 10x1
also_out 'slot 4: row 2, supply 1 work units, got 4 of 4 work units, done at clock 5, late by 1 slot'
also_out 'slot 5: idle, supply 1 work units'
also_out 'after 10 slots: no row is open'
case_is 0 'slot 0: row 1, supply 2 work units, got 2 of 2 work units, done at clock 1' '' run p3.sheet --order=1,2 2 2
also_out 'after 2 slots: rows still open: 2'
case_is 0 'after 4 slots: rows still open: 2 (late)' '' run p3.sheet --order 1,2 4x0
case_is 0 '       4       2       4       4       3       0       0' '' run --plain p3.sheet --order 1,2 10x1
also_out '       0       2'
also_out '       0       1       1       2       2       0       0'
also_out '       5       0       0       0       0       0       0'
case_is 0 'from slot 1, 4 slots: row 2, done at clock 5, late by 1 slot' '' run --stretches p3.sheet --order 1,2 10x1
also_out 'from slot 0, 1 slot: row 1, dropped at clock 1, its slots used up'
also_out 'from slot 5, 5 slots: idle'
case_is 0 '       1       4       2       3       0       0' '' run --stretches --plain p3.sheet --order 1,2 10x1
case_is 0 'slot 0: row 1, supply 4294967295 work units, got 20 of 20 work units, done at clock 1' '' run p1.sheet 4294967295
# The last slot is worked, one more is refused with 8, and what was worked is kept.
case_is 0 'from slot 11, 1999989 slots: idle' '' run --stretches p1.sheet 2000x5 1998000x0
case_is 2 'after 2000000 slots: rows still open: 1 (late), 3 (late)' 'number 8: the clock is 2,000,000 slots, and no further slot is worked' run --stretches p1.sheet 2000001x0
also_out 'from slot 0, 2000000 slots: row 1'
also_out 'at clock 5: row 4, got 0 of 5 work units, dropped at its deadline'
also_out 'at clock 10: row 2, got 0 of 15 work units, dropped at its deadline'
also_err 'remedy: begin a new run with a fresh record'
case_is 2 '       0 2000000       1       0       0       0' '*' run --stretches --plain p1.sheet 4294967295x0 4294967295x7
case_is 2 ' 1999999       1       0      20       0       0       0' 'number 8: the clock is 2,000,000 slots, and no further slot is worked' run --plain p1.sheet 2000001x0
[ "$(wc -l <out)" -eq 2000003 ] || complain "2,000,000 slots, two rows dropped, and the first line"
# LO rows at their deadlines: row 2 is done by its last slot, row 3 dropped by its own while the HI row below goes on, row 5 for its slots.
works() { # OPTIONS SHEET SUPPLIES: the run is the one on standard input
    cat >expected
    # shellcheck disable=SC2086 # several words
    case_is 0 '*' '' run $1 "$2" $3
    cmp -s out expected || complain "run $1 $2 $3: not as it should be"
}
works '' late-preview.sheet '4x4 2x3 8x2' <<'SLOTS'
order: 1 2 3 4 5
slot 0: row 4, supply 4 work units, got 4 of 12 work units
slot 1: row 2, supply 4 work units, got 4 of 6 work units
slot 2: row 2, supply 4 work units, got 6 of 6 work units, done at clock 3
slot 3: row 1, supply 4 work units, got 4 of 8 work units
slot 4: row 1, supply 3 work units, got 7 of 8 work units
slot 5: row 1, supply 3 work units, got 8 of 8 work units, done at clock 6
slot 6: row 3, supply 2 work units, got 2 of 6 work units, dropped at clock 7, its deadline
slot 7: row 4, supply 2 work units, got 6 of 12 work units
slot 8: row 4, supply 2 work units, got 8 of 12 work units
slot 9: row 4, supply 2 work units, got 10 of 12 work units
slot 10: row 4, supply 2 work units, got 12 of 12 work units, done at clock 11
slot 11: row 5, supply 2 work units, got 2 of 10 work units
slot 12: row 5, supply 2 work units, got 4 of 10 work units
slot 13: row 5, supply 2 work units, got 6 of 10 work units, dropped at clock 14, its slots used up
after 14 slots: no row is open
SLOTS
works '--plain --stretches' late-preview.sheet '4x4 2x3 8x2' <<'STRETCHES'
       0       5
       0       1       4       0       0       0
       1       2       2       1       0       0
       3       3       1       1       0       0
       6       1       3       4       0       0
       7       4       4       1       0       0
      11       3       5       2       0       0
STRETCHES
# Dropped while another row runs: a line of its own after the slot's, or after those of the stretch, by clock and then by row.
"$command" sheet 2 1 0 0,20,30,HI 0,2,5,LO 0,4,3,LO 1,2,3,LO 0,6,9,LO >beside.sheet
works '--order 1,5,4,3,2' beside.sheet '4x1 5x4 2x1' <<'SLOTS'
order: 1 5 4 3 2
slot 0: row 1, supply 1 work units, got 1 of 20 work units
slot 1: row 1, supply 1 work units, got 2 of 20 work units
slot 2: row 1, supply 1 work units, got 3 of 20 work units
at clock 3: row 3, got 0 of 4 work units, dropped at its deadline
at clock 3: row 4, got 0 of 2 work units, dropped at its deadline
slot 3: row 1, supply 1 work units, got 4 of 20 work units
slot 4: row 1, supply 4 work units, got 8 of 20 work units
at clock 5: row 2, got 0 of 2 work units, dropped at its deadline
slot 5: row 1, supply 4 work units, got 12 of 20 work units
slot 6: row 1, supply 4 work units, got 16 of 20 work units
slot 7: row 1, supply 4 work units, got 20 of 20 work units, done at clock 8
slot 8: row 5, supply 4 work units, got 4 of 6 work units, dropped at clock 9, its deadline
slot 9: idle, supply 1 work units
slot 10: idle, supply 1 work units
after 11 slots: no row is open
SLOTS
works '--order 1,5,4,3,2 --stretches' beside.sheet '4x1 5x4 2x1' <<'STRETCHES'
order: 1 5 4 3 2
from slot 0, 8 slots: row 1, done at clock 8
at clock 3: row 3, got 0 of 4 work units, dropped at its deadline
at clock 3: row 4, got 0 of 2 work units, dropped at its deadline
at clock 5: row 2, got 0 of 2 work units, dropped at its deadline
from slot 8, 1 slot: row 5, dropped at clock 9, its deadline
from slot 9, 2 slots: idle
after 11 slots: no row is open
STRETCHES
works '--order 1,5,4,3,2 --plain' beside.sheet '5x1' <<'SLOTS'
       0       5
       0       1       1      20       0       0       0
       1       1       2      20       0       0       0
       2       1       3      20       0       0       0
       2       3       0       4       5       0       0
       2       4       0       2       5       0       0
       3       1       4      20       0       0       0
       4       1       5      20       0       0       0
       4       2       0       2       5       0       0
SLOTS
works '--order 1,5,4,3,2 --plain --stretches' beside.sheet '4x1 5x4 2x1' <<'STRETCHES'
       0       5
       0       8       1       1       0       0
       3       0       3       5       0       0
       3       0       4       5       0       0
       5       0       2       5       0       0
       8       1       5       4       0       0
       9       2       0       0       0       0
STRETCHES
# Loading: row 1 of the sample is preempted after one of its two loading slots, then after both, and does not load again.
loads() { works "$1" loading.sheet "$2"; }
loads '' 12x4 <<'SLOTS'
order: 2 3 1
slot 0: row 1, loading slot 1 of 2, supply 4 work units, got 0 of 12 work units
slot 1: row 2, loading slot 1 of 2, supply 4 work units, got 0 of 4 work units
slot 2: row 2, loading slot 2 of 2, supply 4 work units, got 0 of 4 work units
slot 3: row 2, supply 4 work units, got 4 of 4 work units, done at clock 4
slot 4: row 1, loading slot 2 of 2, supply 4 work units, got 0 of 12 work units
slot 5: row 1, supply 4 work units, got 4 of 12 work units
slot 6: row 3, loading slot 1 of 2, supply 4 work units, got 0 of 4 work units
slot 7: row 3, loading slot 2 of 2, supply 4 work units, got 0 of 4 work units
slot 8: row 3, supply 4 work units, got 4 of 4 work units, done at clock 9
slot 9: row 1, supply 4 work units, got 8 of 12 work units
slot 10: row 1, supply 4 work units, got 12 of 12 work units, done at clock 11
slot 11: idle, supply 4 work units
after 12 slots: no row is open
SLOTS
loads --plain 12x4 <<'SLOTS'
       0       3
       0       1       0      12       0       1       0
       1       2       0       4       0       1       0
       2       2       0       4       0       1       0
       3       2       4       4       1       0       0
       4       1       0      12       0       1       0
       5       1       4      12       0       0       0
       6       3       0       4       0       1       0
       7       3       0       4       0       1       0
       8       3       4       4       1       0       0
       9       1       8      12       0       0       0
      10       1      12      12       1       0       0
      11       0       0       0       0       0       0
SLOTS
loads --stretches 12x4 <<'STRETCHES'
order: 2 3 1
from slot 0, 1 slot (1 loading): row 1
from slot 1, 3 slots (2 loading): row 2, done at clock 4
from slot 4, 2 slots (1 loading): row 1
from slot 6, 3 slots (2 loading): row 3, done at clock 9
from slot 9, 2 slots: row 1, done at clock 11
from slot 11, 1 slot: idle
after 12 slots: no row is open
STRETCHES
loads '--plain --stretches' 12x4 <<'STRETCHES'
       0       3
       0       1       1       0       1       0
       1       3       2       1       2       0
       4       2       1       0       1       0
       6       3       3       1       2       0
       9       2       1       1       0       0
      11       1       0       0       0       0
STRETCHES
# Loading slots are in a LO row's allowance; its last slot of 5 drops it, which is also the last before its deadline.
case_is 0 'slot 12: row 1, supply 2 work units, got 6 of 12 work units, dropped at clock 13, its slots used up' '' run loading.sheet 13x2
# What a loading slot supplies is lost, however much it is.
case_is 0 'slot 0: row 1, loading slot 1 of 2, supply 4294967295 work units, got 0 of 12 work units' '' run loading.sheet 4294967295

# The lines of slots, and of rows dropped while another one runs, are those of the run on paper, but for what is said of loading, of a late row
# and of why a row was dropped; the loading slots are the first K that each row runs; stretches are these lines put together.
for sheet in p1.sheet p2.sheet rows64.sheet loading.sheet late-preview.sheet promise.sheet lifting.sheet; do
    for supplies in '5 5 2 2 2' '3' '0 1 2 3 4 5 6 7 8 9' '7 0 0 0 2 4294967295'; do
        # shellcheck disable=SC2086 # several supplies
        "$paper" "$sheet" $supplies >paper.out || true
        grep '^slot\|^clock' paper.out >paper.slots
        last=${supplies##* }
        count=$(grep -c '^slot' paper.slots)
        # shellcheck disable=SC2086
        case_is 0 '*' '' run "$sheet" $supplies "${count}x$last"
        sed -n "/^slot $count:/q; s/, late by .*//; s/\\(, dropped at clock [0-9]*\\),.*/\\1/; s/, loading slot [0-9]* of [0-9]*,/,/
            s/, promised [0-9]* work units* got at clock [0-9]*//; s/^at \\(clock.*\\), got .*, dropped at its deadline.*/\\1 dropped at its deadline/
            /^slot\\|^clock/p" out >ours.slots
        grep -o 'row .*, loading slot [0-9]* of [0-9]*' out >ours.loading || true
        cmp -s ours.slots paper.slots || complain "run $sheet $supplies: not as on paper"
        [ "$(grep -c 'late by' out)" -eq "$(grep -c ', late$' paper.out)" ] || complain "run $sheet $supplies: not late as on paper"
        # shellcheck disable=SC2086
        "$command" run --plain "$sheet" $supplies "${count}x$last" >slots.plain
        [ "$(grep -c '^at clock' out)" -eq "$(awk 'NR > 1 && $5 == 5' slots.plain | wc -l)" ] || complain "run --plain $sheet $supplies: other rows dropped"
        awk -v k="$(head -n 1 "$sheet" | cut -c 25-32)" \
            'NR > 1 && $2 > 0 && $5 != 5 && used[$2]++ < k { print "row " $2 ", loading slot " used[$2] " of " k + 0 }' slots.plain >expected
        cmp -s ours.loading expected || complain "run $sheet $supplies: other loading slots"
        awk 'NR > 1 && $5 != 5 { print $6 }' slots.plain | paste -sd ' ' >flags
        grep '^slot' out | sed 's/.*loading.*/1/; t; s/.*/0/' | paste -sd ' ' | cmp -s - flags || complain "run --plain $sheet $supplies: other loading slots"
        awk 'function put() { printf "%8d%8d%8d%8d%8d%8d\n%s", first, length_, row, closed, loading, promised, dropped
                 length_ = loading = promised = 0; dropped = "" }
             NR > 1 && $5 == 5 { dropped = dropped sprintf("%8d%8d%8d%8d%8d%8d\n", $1 + 1, 0, $2, 5, 0, 0) }
             NR > 1 && $5 != 5 { if (length_ > 0 && ($2 != row || closed)) put()
                 if (length_++ == 0) first = $1
                 row = $2; closed = $5; loading += $6; promised += $7 } END { put() }' slots.plain >expected
        # A promised part is got in the slot in which the work got reaches it, and in no other.
        awk 'NR == FNR { part[FNR - 1] = $5; next }
             FNR > 1 && $5 != 5 && $2 > 0 && part[$2] > 0 && got[$2] < part[$2] && $3 >= part[$2] { print $1, $2, $1 + 1 } { got[$2] = $3 }' \
            "$sheet" slots.plain >expected.promised
        awk 'NR > 1 && $7 > 0 { print $1, $2, $7 }' slots.plain | cmp -s - expected.promised || complain "run --plain $sheet $supplies: other promised parts"
        # shellcheck disable=SC2086
        case_is 0 '*' '' run --plain --stretches "$sheet" $supplies "${count}x$last"
        tail -n +2 out | cmp -s - expected || complain "run --stretches $sheet $supplies: not the slots put together"
    done
done

# ---- promised parts ----
# With the promise row 2 stands above the HI row 4, and its slack is that of the promised part; without it, below. Both orders are judged.
case_is 0 'place 2: row 2 (LO), slack 2 slots' '' plan promise.sheet
also_out 'place 3: row 4 (HI), slack 3 slots'
case_is 0 'row 2 (LO): worst finish 7 slots, promised part at 10 slots, deadline 12 slots, slack 2 slots' '' finishes promise.sheet
also_out 'row 3 (LO): worst finish 10 slots, deadline 17 slots, slack 7 slots'
case_is 0 '       2       7      12       2       0      10' '' finishes --plain promise.sheet
also_out '       4      13      16       3       0       0'
case_is 1 'tightest: row 2 (LO)' '' judge promise.sheet 1,4,2,3
also_out 'The judge says no (number 0, the order is not correct): tightest row 2, slack -1 slot.'
case_is 0 'row 2 (LO): worst finish 9 slots, promised part at 13 slots, deadline 12 slots, slack -1 slot' '' finishes promise.sheet 1,4,2,3
lines '1 1 2 6 2' '2 4 2 9 7' '3 2 5 9 -1' '4 3 1 10 7' '10 1' | report_is promise.sheet 1 4 2 3
lines '1 1 2 6 2' '2 2 5 7 2' '3 4 2 13 3' '4 3 1 10 7' '10 0' | report_is promise.sheet
sed '3s/12       0$/ 0       0/' promise.sheet >no-promise.sheet
case_is 0 'place 2: row 4 (HI), slack 7 slots' '' plan no-promise.sheet
# Row 2 has 5 slots for its work at N and 6 for its promised part at G, and uses 6.
works '' promise.sheet '2x4 14x2' <<'SLOTS'
order: 1 2 4 3
slot 0: row 2, supply 4 work units, got 4 of 18 work units
slot 1: row 2, supply 4 work units, got 8 of 18 work units
slot 2: row 1, supply 2 work units, got 2 of 8 work units
slot 3: row 1, supply 2 work units, got 4 of 8 work units
slot 4: row 1, supply 2 work units, got 6 of 8 work units
slot 5: row 1, supply 2 work units, got 8 of 8 work units, done at clock 6
slot 6: row 2, supply 2 work units, got 10 of 18 work units
slot 7: row 2, supply 2 work units, got 12 of 18 work units, promised 12 work units got at clock 8
slot 8: row 2, supply 2 work units, got 14 of 18 work units
slot 9: row 2, supply 2 work units, got 16 of 18 work units, dropped at clock 10, its slots used up, promised 12 work units got
slot 10: row 4, supply 2 work units, got 2 of 6 work units
slot 11: row 4, supply 2 work units, got 4 of 6 work units
slot 12: row 4, supply 2 work units, got 6 of 6 work units, done at clock 13
slot 13: row 3, supply 2 work units, got 2 of 4 work units, dropped at clock 14, its slots used up
slot 14: idle, supply 2 work units
slot 15: idle, supply 2 work units
after 16 slots: no row is open
SLOTS
works --stretches promise.sheet '2x4 14x2' <<'STRETCHES'
order: 1 2 4 3
from slot 0, 2 slots: row 2
from slot 2, 4 slots: row 1, done at clock 6
from slot 6, 4 slots: row 2, promised 12 work units got at clock 8, dropped at clock 10, its slots used up
from slot 10, 3 slots: row 4, done at clock 13
from slot 13, 1 slot: row 3, dropped at clock 14, its slots used up
from slot 14, 2 slots: idle
after 16 slots: no row is open
STRETCHES
works '--plain --stretches' promise.sheet '2x4 14x2' <<'STRETCHES'
       0       4
       0       2       2       0       0       0
       2       4       1       1       0       0
       6       4       2       2       0       8
      10       3       4       1       0       0
      13       1       3       2       0       0
      14       2       0       0       0       0
STRETCHES
# Below G nothing is promised: the part is not got, by a row that runs as by one that waits.
case_is 0 'slot 11: row 2, supply 1 work units, got 4 of 18 work units, dropped at clock 12, its deadline, promised 12 work units not got' '' run promise.sheet 12x1
case_is 0 'at clock 12: row 2, got 0 of 18 work units, dropped at its deadline, promised 12 work units not got' '' run promise.sheet --order 4,1,3,2 20x0
# A row that waits has got its part before it is dropped; one work unit; all of the work, which is done when it is got.
"$command" sheet 4 2 0 0,9,6,LO,1 1,20,30,HI >beside.sheet
case_is 0 'at clock 6: row 1, got 2 of 9 work units, dropped at its deadline, promised 1 work unit got' '' run --stretches beside.sheet --order 2,1 9x2
also_out 'from slot 0, 1 slot: row 1, promised 1 work unit got at clock 1'
"$command" sheet 4 2 1 0,9,9,LO,9 >whole.sheet
case_is 0 'row 1 (LO): worst finish 4 slots, promised part at 6 slots, deadline 9 slots, slack 3 slots' '' finishes whole.sheet
case_is 0 'slot 3: row 1, supply 4 work units, got 9 of 9 work units, promised 9 work units got at clock 4, done at clock 4' '' run whole.sheet 9x4
case_is 0 'from slot 0, 6 slots (1 loading): row 1, promised 9 work units got at clock 6, done at clock 6' '' run --stretches whole.sheet 6x2
case_is 0 '       0       6       1       1       1       6' '' run --plain --stretches whole.sheet 6x2
# The clock at which a part is got, in a long stretch whose supplies change.
"$command" sheet 10 7 0 0,1000000,500000,LO,700001 >long.sheet
case_is 0 'from slot 0, 90001 slots: row 1, promised 700001 work units got at clock 85001' '' run --stretches long.sheet 60000x10 1 25000x4 5000x0
# Least speeds: up to 171 work units take row 2 its 9 slots at G = 19 too, 172 take it 10, and so row 1 has a slot too few.
for promised in 0 171 172 180; do
    "$command" sheet 20 20 0 0,200,20,HI "0,180,18,LO,$promised" >cooler-promise.sheet
    case_is 0 "least degraded speed, with N = 20 work units per slot: G = $([ "$promised" -gt 171 ] && echo 20 || echo 19) work units per slot" '' speeds cooler-promise.sheet
done
"$command" sheet 5 5 1 0,10,2,LO,1 >remedy.sheet
case_is 1 'remedy: give the rows left later deadlines, less work or smaller promised parts, the processor a larger N, or the table a smaller K' '' speeds remedy.sheet

# ---- rows that follow rows ----
# The move waits for the lift, and the preview for the move: each stands below the row that it follows, and is named with it. Of two rows with the
# same deadline the first is tried first, so that without its wait the move would stand above the lift.
case_is 0 'place 2: row 1 (HI), slack 6 slots' '' plan lifting.sheet
also_out 'place 3: row 2 (HI, follows row 1), slack 2 slots'
also_out 'place 4: row 3 (LO, follows row 2), slack 7 slots'
case_is 0 '       3       2       2' '' plan --plain lifting.sheet
case_is 0 'row 2 (HI, follows row 1): worst finish 10 slots, deadline 12 slots, slack 2 slots' '' finishes lifting.sheet
also_out 'row 1 (HI): worst finish 6 slots, deadline 12 slots, slack 6 slots'
case_is 0 '       2      10      12       2       0       0' '' finishes --plain lifting.sheet
without_waits() { sed '2,$s/.$/0/' "$1"; }
without_waits lifting.sheet >no-waits.sheet
case_is 0 'place 2: row 2 (HI), slack 6 slots' '' plan no-waits.sheet
also_out 'place 3: row 1 (HI), slack 2 slots'
case_is 0 'place 3: row 2 (HI, follows row 1), slack 2 slots' '' speeds lifting.sheet
# An order that has a row above the one that it follows is refused like one that is none, and the first such row is named with both places.
while IFS='|' read -r order where; do
    refusal_is 2 6 "$no_order" judge lifting.sheet "$order"
    also_err "where: $where"
    also_err "$each_once"
    [ "$(wc -l <err)" -eq 3 ] || complain "judge lifting.sheet $order: not three lines"
    case_is 2 '       6       0' "where: $where" judge --plain lifting.sheet "$order"
    case_is 2 '       6       0' "where: $where" finishes --plain lifting.sheet "$order"
    case_is 2 '       6       0' "where: $where" report --plain lifting.sheet "$order"
    case_is 2 '       6       0' "where: $where" speeds --slacks --plain lifting.sheet "$order"
    case_is 2 '' "where: $where" run lifting.sheet 5 --order "$order"
    case_is 0 '*' '' finishes no-waits.sheet "$order"
done <<'ORDERS'
4,2,1,3|place 2, row 2: it follows row 1, which stands below it, in place 3
3,2,1,4|place 2, row 2: it follows row 1, which stands below it, in place 3
1,3,4,2|place 2, row 3: it follows row 2, which stands below it, in place 4
3,4,1,2|place 1, row 3: it follows row 2, which stands below it, in place 4
ORDERS
for order in 2,1,3 2,2,1,3 4,2,1,3,3; do
    refusal_is 2 6 "$no_order" judge lifting.sheet "$order"
    ! grep -q '^where: ' err || complain "judge lifting.sheet $order: a place"
done
case_is 0 'The judge says yes (number 0, the order is correct): tightest row 4, slack 1 slot.' '' judge lifting.sheet 4,1,2,3
case_is 0 'The judge says yes (number 0, the order is correct): tightest row 4, slack 1 slot.' '' judge no-waits.sheet 4,2,1,3
# The tightest row is named with the row that it follows.
"$command" sheet 1 1 0 0,1,9,LO 0,1,2,LO,0,1 >tight.sheet
case_is 0 'The judge says yes (number 0, the order is correct): tightest row 2, slack 0 slots.' '' judge tight.sheet 1 2
also_out 'tightest: row 2 (LO, follows row 1)'
# A follower does not run before the row that it follows is closed, however it is; of an open one it is said for which row it waits.
works --stretches lifting.sheet '2x4 2x3 6x4' <<'STRETCHES'
order: 4 1 2 3
from slot 0, 1 slot: row 1
from slot 1, 1 slot: row 4, done at clock 2
from slot 2, 2 slots: row 1, done at clock 4
from slot 4, 2 slots: row 2, done at clock 6
from slot 6, 1 slot: idle
from slot 7, 2 slots: row 3, done at clock 9
from slot 9, 1 slot: idle
after 10 slots: no row is open
STRETCHES
case_is 0 'after 2 slots: rows still open: 1, 2 (waits for row 1), 3 (waits for row 2)' '' run lifting.sheet 2x4
case_is 0 'after 4 slots: rows still open: 2, 3 (waits for row 2)' '' run lifting.sheet 2x4 2x3
case_is 0 'after 12 slots: rows still open: 1 (late), 2 (late, waits for row 1), 3 (waits for row 2), 4 (late)' '' run lifting.sheet 12x0
case_is 0 'after 2 slots: rows still open: 1, 2, 3' '' run no-waits.sheet 2x4
"$command" sheet 2 1 0 0,4,9,LO 0,2,9,LO,0,1 >dropped.sheet
works '' dropped.sheet '1 1 2' <<'SLOTS'
order: 1 2
slot 0: row 1, supply 1 work units, got 1 of 4 work units
slot 1: row 1, supply 1 work units, got 2 of 4 work units, dropped at clock 2, its slots used up
slot 2: row 2, supply 2 work units, got 2 of 2 work units, done at clock 3
after 3 slots: no row is open
SLOTS
"$command" sheet 1 1 0 0,2,2,LO 0,1,5,LO,0,1 0,2,2,HI >overdue.sheet
works '--order 3,1,2' overdue.sheet 3x1 <<'SLOTS'
order: 3 1 2
slot 0: row 3, supply 1 work units, got 1 of 2 work units
slot 1: row 3, supply 1 work units, got 2 of 2 work units, done at clock 2
at clock 2: row 1, got 0 of 2 work units, dropped at its deadline
slot 2: row 2, supply 1 work units, got 1 of 1 work units, done at clock 3
after 3 slots: no row is open
SLOTS
# Under an order that keeps the waits, every slot is the one that it is without them.
"$command" sheet 4 2 1 0,9,30,LO,4 0,5,40,LO,0,1 3,7,50,HI 5,6,60,HI,0,3 5,6,60,LO,2,2 6,1,30,LO,0,4 >many-waits.sheet
for sheet in lifting.sheet dropped.sheet many-waits.sheet; do
    without_waits "$sheet" >no-waits.sheet
    order=$("$command" plan --plain "$sheet" | awk 'NR > 1 { printf "%s%s", comma, $2; comma = "," }')
    for supplies in 40x4 40x2 40x1 '3x1 0 4x9 30x2'; do
        # shellcheck disable=SC2086 # several supplies
        "$command" run --plain "$sheet" --order "$order" $supplies >waiting
        # shellcheck disable=SC2086
        case_is 0 '*' '' run --plain no-waits.sheet --order "$order" $supplies
        cmp -s out waiting || complain "run $sheet $supplies: waits change a slot"
        awk 'NR == FNR { follows[FNR - 1] = $6; next } FNR > 1 { if ($5 != 5 && $2 > 0 && follows[$2] > 0 && !closed[follows[$2]]) exit 1; if ($5 > 0) closed[$2] = 1 }' \
            "$sheet" waiting || complain "run $sheet $supplies: a row runs before the one that it follows is closed"
    done
done
# No correct order, and whether there is one without waits; nothing of that where no row follows another.
"$command" sheet 1 1 0 0,1,9,LO 0,1,1,LO,0,1 >urgent.sheet
refusal_is 1 7 'waits: without them a correct order exists' plan urgent.sheet
also_err 'number 7: no correct order exists'
also_err 'rows left: 1 2'
also_err "$not_said"
[ "$(wc -l <err)" -eq 5 ] || complain "plan urgent.sheet: not five lines"
case_is 1 'waits: without them a correct order exists' '' explain urgent.sheet
case_is 1 '       7       2' 'waits: without them a correct order exists' plan --plain urgent.sheet
case_is 1 '       7       2' 'waits: without them a correct order exists' finishes --plain urgent.sheet
without_waits urgent.sheet >no-waits.sheet
case_is 0 'place 1: row 2 (LO), slack 0 slots' '' plan no-waits.sheet
"$command" sheet 2 1 0 0,2,2,LO 0,4,4,HI 0,1,9,LO,0,1 >hopeless.sheet
refusal_is 1 7 'waits: without them no correct order exists either' plan hopeless.sheet
# The remedy for a range of speeds names fewer waits where they can help.
"$command" sheet 1 1 0 0,1000,9,LO 0,1,2,LO,0,1 0,1,9,HI >slow-wait.sheet
case_is 1 'remedy: give the rows left later deadlines or less work, or the processor a larger N' '' speeds slow-wait.sheet
"$command" sheet 5 5 0 0,5,9,LO 0,5,1,LO,0,1 >wait-speeds.sheet
case_is 1 'remedy: give the rows left later deadlines, less work or fewer waits' '' speeds wait-speeds.sheet
"$command" sheet 5 5 0 0,5,9,LO,5 0,5,1,LO,0,1 >wait-speeds.sheet
case_is 1 'remedy: give the rows left later deadlines, less work, smaller promised parts or fewer waits' '' speeds wait-speeds.sheet
# The clock of a promised part under waits, of a LO row that follows a LO row.
"$command" sheet 4 2 0 0,8,20,LO 0,18,30,LO,12,1 >wait-promise.sheet
case_is 0 'row 2 (LO, follows row 1): worst finish 7 slots, promised part at 8 slots, deadline 30 slots, slack 22 slots' '' finishes wait-promise.sheet

# ---- a day of several sheets on one clock ----
# day_is STATUS ARGUMENTS..: standard output is the text on standard input; what goes to standard error is left in err.
day_is() {
    local status=$1
    shift
    cat >expected
    case_is "$status" '*' '*' day "$@"
    cmp -s out expected || { diff out expected >err || true; complain "day $*: not as it should be"; }
}
# plain_day_is STATUS ARGUMENTS..: the same in figures.
plain_day_is() {
    local status=$1 figures
    shift
    while read -r -a figures; do line "${figures[@]}"; done >expected.figures
    day_is "$status" --plain "$@" <expected.figures
}
day_is 0 --stretches p1.sheet 12x5 then second.sheet 3x5 9x2 then third.sheet 10x4 <<'DAY'
sheet 1 (p1.sheet): begun at clock 0
order: 1 2 3 4
from slot 0, 4 slots: row 1, done at clock 4
from slot 4, 1 slot: row 4, done at clock 5
from slot 5, 3 slots: row 2, done at clock 8
from slot 8, 3 slots: row 3, done at clock 11
from slot 11, 1 slot: idle
after 12 slots: no row is open
sheet 2 (second.sheet): committed at clock 12
order: 1 2 3
from slot 12, 2 slots: idle
from slot 14, 2 slots: row 1, done at clock 16
from slot 16, 4 slots: row 2, done at clock 20
from slot 20, 2 slots: row 3, promised 4 work units got at clock 22, dropped at clock 22, its slots used up
from slot 22, 2 slots: idle
after 24 slots: no row is open
sheet 3 (third.sheet): committed at clock 24
order: 1 2
from slot 24, 2 slots: idle
from slot 26, 3 slots (1 loading): row 1, done at clock 29
from slot 29, 3 slots (1 loading): row 2, done at clock 32
from slot 32, 2 slots: idle
after 34 slots: no row is open
DAY
[ ! -s err ] || complain "a day without a refusal: standard error is not empty"
lines '1 0 4 0 0' '1 0 4 1 1 0 0' '1 4 1 4 1 0 0' '1 5 3 2 1 0 0' '1 8 3 3 1 0 0' '1 11 1 0 0 0 0' '2 0 3 0 12' '2 12 2 0 0 0 0' '2 14 2 1 1 0 0' \
    '2 16 4 2 1 0 0' '2 20 2 3 2 0 22' '2 22 2 0 0 0 0' '3 0 2 0 24' '3 24 2 0 0 0 0' '3 26 3 1 1 1 0' '3 29 3 2 1 1 0' '3 32 2 0 0 0 0' |
    plain_day_is 0 --stretches p1.sheet 12x5 then second.sheet 3x5 9x2 then third.sheet 10x4
# A day of one sheet is its run.
for sheet in p1 loading late-preview promise lifting; do
    for form in '' --stretches; do
        # shellcheck disable=SC2086 # the form may be no word
        "$command" run $form "$sheet.sheet" 3x4 8x2 2x0 9x1 >one
        # shellcheck disable=SC2086
        { echo "sheet 1 ($sheet.sheet): begun at clock 0" && cat one; } | day_is 0 $form "$sheet.sheet" 3x4 8x2 2x0 9x1
        # shellcheck disable=SC2086
        "$command" run --plain $form "$sheet.sheet" 3x4 8x2 2x0 9x1 | sed 1d >one
        # shellcheck disable=SC2086
        { line 1 0 "$(head -c 8 "$sheet.sheet" | tr -d ' ')" 0 0 && sed 's/^/       1/' one; } | day_is 0 --plain $form "$sheet.sheet" 3x4 8x2 2x0 9x1
    done
done
# A later sheet does in each slot what it would do if the slots before its commit had been idle, whatever the sheet before it did with them.
for supplies in 12x5 9x2 '5 1 3 2x0 7x2'; do
    # shellcheck disable=SC2086 # several supplies
    "$command" day --plain p1.sheet 13x5 then second.sheet $supplies | sed -n 's/^       2//p' | sed 1d >later
    # shellcheck disable=SC2086
    "$command" run --plain second.sheet 13x9 $supplies | sed 1,14d >alone
    cases=$((cases + 1))
    cmp -s later alone || complain "second.sheet after p1.sheet with $supplies: not its run with idle slots before"
done
# A release at the clock is taken, one below it is not: the row, its figure, where it stands, and the record as it was.
case_is 0 'sheet 2 (second.sheet): committed at clock 14' '' day p1.sheet 14x5 then second.sheet 5
also_out 'slot 14: row 1, supply 5 work units, got 5 of 6 work units'
case_is 2 'sheet 2 (second.sheet): refused at clock 15; sheet 1 (p1.sheet) stays as it was' 'number 18: a row of the new sheet has its release below the clock' \
    day p1.sheet 6x5 4 3 7x2 then second.sheet 5
also_out 'slot 14: idle, supply 2 work units'
also_out 'after 15 slots: no row is open'
also_out 'row 1 (HI): got 20 of 20 work units, done at clock 4'
also_out 'row 2 (LO): got 12 of 15 work units, dropped at clock 8, its slots used up'
also_out 'row 3 (HI): got 11 of 11 work units, done at clock 14'
also_out 'row 4 (LO): got 5 of 5 work units, done at clock 5'
also_err 'sheet 2 (second.sheet) is refused'
also_err 'where: row 1, release, byte 34 (line 2, byte 1 of it): the figure is 14'
also_err 'allowed: 15 slots or more, from the clock on'
also_err 'remedy: count releases and deadlines in slots of the running clock: let the new sheet start at the clock of its commit or later; from clock 1,000,000 slots on begin a new run with a fresh record'
[ "$(wc -l <err)" -eq 5 ] || complain "18: not five lines"
lines '1 0 4 0 0' '1 0 4 1 1 0 0' '1 4 1 4 1 0 0' '1 5 3 2 1 0 0' '1 8 3 3 1 0 0' '1 11 4 0 0 0 0' '2 18 3 1 15' '1 1 20 20 1 4' '1 2 15 15 1 8' '1 3 11 11 1 11' '1 4 5 5 1 5' |
    plain_day_is 2 --stretches p1.sheet 15x5 then second.sheet 5
# Of the rows below the clock the lowest is named, and they are counted.
{ line 3 5 2 0 && line 15 1 20 1 0 0 && line 13 1 20 1 0 0 && line 12 1 20 1 0 0; } >early.sheet
case_is 2 '       2      18       2       2      14' 'where: row 2, release, byte 83 (line 3, byte 1 of it): the figure is 13' day --plain p1.sheet 14x5 then early.sheet 5
case_is 2 '       2      18       1       3      13' 'where: row 3, release, byte 132 (line 4, byte 1 of it): the figure is 12' day --plain p1.sheet 13x5 then early.sheet 5
case_is 0 '       2       0       3       0      12' '' day --plain p1.sheet 12x5 then early.sheet 5
# 17: which rows are open, late or waiting, and where each stands; 17 comes before 18.
case_is 2 'row 2 (LO): got 5 of 15 work units, open' 'where: sheet 1 (p1.sheet), clock 6: rows still open: 2, 3' day p1.sheet 6x5 then second.sheet 5
also_err 'number 17: a row of the running sheet is open'
also_err 'remedy: work on until every row is done or dropped, and commit then'
[ "$(wc -l <err)" -eq 4 ] || complain "17: not four lines"
case_is 2 'row 1 (HI): got 0 of 20 work units, open (late)' 'where: sheet 1 (p1.sheet), clock 15: rows still open: 1 (late), 3' day p1.sheet 15x0 then p2.sheet 5
also_out 'row 2 (LO): got 0 of 15 work units, dropped at clock 10, its deadline'
also_err 'number 17: a row of the running sheet is open'
case_is 2 '       2      17       2       1      15' '*' day --plain p1.sheet 15x0 then p2.sheet 5
also_out '       1       1       0      20       0       0'
also_out '       1       2       0      15       4      10'
case_is 2 'row 2 (HI, follows row 1): got 0 of 8 work units, open (waits for row 1)' \
    'where: sheet 2 (second.sheet), clock 15: rows still open: 1, 2 (waits for row 1), 3' day p1.sheet 12x5 then second.sheet 2x5 5 then third.sheet 5
also_out 'sheet 3 (third.sheet): refused at clock 15; sheet 2 (second.sheet) stays as it was'
also_err 'sheet 3 (third.sheet) is refused'
# A promised part of a row that was dropped is told in the record that stays.
case_is 2 'row 3 (LO): got 4 of 10 work units, dropped at clock 23, its slots used up, promised 4 work units got' '*' day p1.sheet 14x5 then second.sheet 13x2 then p1.sheet 5
# No order, and bytes that are no sheet: status and reasons are those of plan, and the day ends with the record as it was.
case_is 1 'sheet 2 (p3.sheet): refused at clock 11; sheet 1 (p1.sheet) stays as it was' 'rows left: 1 2' day p1.sheet 11x5 then p3.sheet 5 then second.sheet 5
also_err 'sheet 2 (p3.sheet) is refused'
also_err 'number 7: no correct order exists'
also_err "$not_said"
also_out 'row 3 (HI): got 11 of 11 work units, done at clock 11'
[ "$(grep -c committed out)" -eq 0 ] || complain "a day goes on after a refusal"
case_is 1 '       2       7       2       0      11' 'rows left: 1 2' day --plain p1.sheet 11x5 then p3.sheet 5
case_is 1 '' 'sheet 1 (p3.sheet) is refused' day p3.sheet 5
case_is 1 '       1       7       2       0       0' 'rows left: 1 2' day --plain p3.sheet 5 then p1.sheet 5
[ "$(wc -l <out)" -eq 1 ] || complain "a first sheet that is refused: more than one line"
case_is 2 '       2       2       0       0      11' "hint: this is a rows file; 'jasminebrace sheet ROWS.csv' makes a sheet of it" day --plain p1.sheet 11x5 then p1.csv 5
# A sheet is asked for before it is committed: its own refusal is told though rows are open.
case_is 1 'sheet 2 (p3.sheet): refused at clock 2; sheet 1 (p1.sheet) stays as it was' 'number 7: no correct order exists' day p1.sheet 2x5 then p3.sheet 5
# The clock ends in a later sheet too; from 1,000,000 slots on none is taken.
"$command" sheet 1 1 0 999999,1,1000000,LO >last.sheet
case_is 0 'from slot 999999, 1 slot: row 1, done at clock 1000000' '' day --stretches p1.sheet 11x5 999988x0 then last.sheet 1
case_is 2 'sheet 2 (last.sheet): refused at clock 1000000; sheet 1 (p1.sheet) stays as it was' 'allowed: 1000000 slots or more, from the clock on' \
    day --stretches p1.sheet 11x5 999989x0 then last.sheet 1
case_is 2 'after 2000000 slots: no row is open' 'number 8: the clock is 2,000,000 slots, and no further slot is worked' \
    day --stretches p1.sheet 11x5 then second.sheet 1999989x5 5 then third.sheet 4
[ "$(grep -c '^sheet' out)" -eq 2 ] || complain "a day goes on after the end of the clock"
# Any file name, 'then' too; standard input once; options anywhere.
cp p1.sheet then && cp second.sheet 5
day_is 0 then 11x5 then 5 9x5 --stretches <<'DAY'
sheet 1 (then): begun at clock 0
order: 1 2 3 4
from slot 0, 4 slots: row 1, done at clock 4
from slot 4, 1 slot: row 4, done at clock 5
from slot 5, 3 slots: row 2, done at clock 8
from slot 8, 3 slots: row 3, done at clock 11
after 11 slots: no row is open
sheet 2 (5): committed at clock 11
order: 1 2 3
from slot 11, 3 slots: idle
from slot 14, 2 slots: row 1, done at clock 16
from slot 16, 2 slots: row 2, done at clock 18
from slot 18, 2 slots: row 3, promised 4 work units got at clock 19, done at clock 20
after 20 slots: no row is open
DAY
case_in=second.sheet
case_is 0 'sheet 2 (standard input): committed at clock 11' '' day p1.sheet 11x5 then - 5
case_is 2 'sheet 2 (standard input): refused at clock 5; sheet 1 (p1.sheet) stays as it was' 'sheet 2 (standard input) is refused' day p1.sheet 5x5 then - 5
case_in=/dev/null
# A refusal comes after what was worked, also where both go to one place, and before the record that stays.
cases=$((cases + 1))
"$command" day p1.sheet 2x5 then second.sheet 5 >both 2>&1 || true
[ "$(sed -n 's/^\(after\|number\|sheet 2 ([^)]*):\).*/\1/p' both | paste -sd ' ')" = 'after number sheet 2 (second.sheet):' ] || complain "a refusal stands elsewhere"

# ---- a million slots by stretches, over 64 rows and over one ----
rows=()
for ((row = 0; row < 64; row++)); do rows+=("0,15625,1000000,1"); done
"$command" sheet 1 1 0 "${rows[@]}" >million.sheet
case_is 0 'from slot 984375, 15625 slots: row 1, done at clock 1000000' '' run --stretches million.sheet 1000000x1
[ "$(grep -c '^from' out)" -eq 64 ] || complain "a stretch for each row"
line 1 1 1 0 >one.sheet && line 0 1000000 1000000 1 0 0 >>one.sheet
case_is 0 'from slot 0, 1000000 slots: row 1, done at clock 1000000' '' run --stretches one.sheet 1000000x1
line 1 1 1 16 >one.sheet && line 0 1000000 1000000 1 0 0 >>one.sheet
case_is 0 'from slot 0, 1000016 slots (16 loading): row 1, done at clock 1000016, late by 16 slots' '' run --stretches one.sheet --order 1 1000016x1

# The largest figures of a plain form: 64 rows of 1,000,016 slots each, 16 of them loading, all released in slot 999,999, the last of them
# 64,001,023 slots late.
slow=()
for ((row = 0; row < 64; row++)); do slow+=("999999,1000000,1000000,1"); done
"$command" sheet 1 1 16 "${slow[@]}" >slow.sheet
in_order=$(seq -s , 64)
case_is 0 '      6465001023 1000000       064001023       0' '' finishes --plain slow.sheet "$in_order"
case_is 1 '       0       0      64       064001023' '' judge --plain slow.sheet "$in_order"
{ for ((row = 1; row <= 64; row++)); do echo "$row $row 1000016 $((999999 + row * 1000016)) $((1 - row * 1000016))"; done && echo '64001024 64'; } |
    report_is slow.sheet "$in_order"

# ---- refusals with their places ----
: >empty.sheet
refused_at empty.sheet 1 '0 0 1 1' 'where: byte 1 (line 1, byte 1 of it): the sheet ends before this byte'
also_err 'length: the sheet has 0 bytes; a first line alone takes 33'
printf '%8s%8s' 4 5 >part.sheet
refused_at part.sheet 1 '0 0 17 1' 'where: byte 17 (line 1, byte 17 of it): the sheet ends before this byte'
printf '4\t5\t2\n' >tabs.sheet
refused_at tabs.sheet 1 '0 1 2 1' 'where: first line, row count n, byte 2 (line 1, byte 2 of it): a tab (byte 9) where a space or a digit belongs'
p1 | head -c -1 >no-last-end.sheet
refused_at no-last-end.sheet 1 '4 7 229 5' 'where: row 4, line end, byte 229 (line 5, byte 49 of it): the last line end (byte 10) is missing'
also_err 'length: the sheet has 228 bytes; the rows that its first line announces make it 229'
p1 | head -n 3 >two-rows.sheet
refused_at two-rows.sheet 1 '3 0 132 4' 'where: row 3, byte 132 (line 4, byte 1 of it): the sheet ends before this byte'
{ p1 && echo; } >line-after.sheet
refused_at line-after.sheet 1 '0 0 230 6' 'where: byte 230 (line 6, byte 1 of it): a line end (byte 10) follows the last row, row 4'
{ p1 && line 0 5 5 0 0 0; } >row-after.sheet
refused_at row-after.sheet 1 '0 0 230 6' 'where: byte 230 (line 6, byte 1 of it): a space (byte 32) follows the last row, row 4'
{ cat rows64.sheet && cat p1.sheet; } >long.sheet
refused_at long.sheet 1 '0 0 3170 66' 'where: byte 3170 (line 66, byte 1 of it): a space (byte 32) follows the last row, row 64'
also_err 'length: the sheet has 3170 bytes or more; the rows that its first line announces make it 3169'
p1 | sed '2,$s/$/\r/' >cr-in-rows.sheet
refused_at cr-in-rows.sheet 1 '1 7 82 2' 'where: row 1, line end, byte 82 (line 2, byte 49 of it): a carriage return (byte 13) where the line end (byte 10) belongs'
p1 | sed 's/$/\r/' >cr.sheet
refused_at cr.sheet 2 '0 5 33 1' 'where: first line, line end, byte 33 (line 1, byte 33 of it): a carriage return (byte 13) where the line end (byte 10) belongs'
{ printf '\357\273\277' && p1; } >mark.sheet
refused_at mark.sheet 2 '0 1 1 1' 'where: first line, row count n, byte 1 (line 1, byte 1 of it): a UTF-8 byte order mark (bytes 239, 187, 191) where a space or a digit belongs'
p1 | sed '3s/      15/\t15     /' >tab.sheet
refused_at tab.sheet 2 '2 2 91 3' 'where: row 2, work, byte 91 (line 3, byte 9 of it): a tab (byte 9) where a space or a digit belongs'
p1 | sed '1s/^       4/00000004/' >zeros.sheet
refused_at zeros.sheet 2 '0 1 1 1' "where: first line, row count n, byte 1 (line 1, byte 1 of it): '0' (byte 48) where a space or a digit 1 to 9 belongs"
p1 | sed '5s/^       0/0       /' >left-zero.sheet
refused_at left-zero.sheet 2 '4 1 181 5' "where: row 4, release, byte 181 (line 5, byte 1 of it): '0' (byte 48) where a space or a digit 1 to 9 belongs"
p1 | sed '4s/19/1x/' >letter.sheet
refused_at letter.sheet 2 '3 3 155 4' "where: row 3, deadline, byte 155 (line 4, byte 24 of it): 'x' (byte 120) where a space or a digit belongs"
p1 | sed '5s/^       0/        /' >blank.sheet
refused_at blank.sheet 2 '4 1 188 5' 'where: row 4, release, byte 188 (line 5, byte 8 of it): a space (byte 32) where a digit belongs'
p1 | sed '2s/      20/20      /' >left.sheet
refused_at left.sheet 2 '1 2 44 2' 'where: row 1, work, byte 44 (line 2, byte 11 of it): a space (byte 32) where a digit belongs'
p1 | sed '2s/      20/     -20/' >minus.sheet
refused_at minus.sheet 2 '1 2 47 2' "where: row 1, work, byte 47 (line 2, byte 14 of it): '-' (byte 45) where a space or a digit belongs"
p1 | tr '\n' ' ' >blanks-as-ends.sheet
refused_at blanks-as-ends.sheet 2 '0 5 33 1' 'where: first line, line end, byte 33 (line 1, byte 33 of it): a space (byte 32) where the line end (byte 10) belongs'
p1 | sed '1s/$/\x00/;2s/^ //' >zero-byte.sheet
refused_at zero-byte.sheet 2 '0 5 33 1' 'where: first line, line end, byte 33 (line 1, byte 33 of it): byte 0 where the line end (byte 10) belongs'
for count in 0 65 99999999; do
    line "$count" 5 2 0 >count.sheet
    refused_at count.sheet 3 '0 1 1 1' "where: first line, row count n, byte 1 (line 1, byte 1 of it): the figure is $count"
    also_err 'allowed: 1 to 64 rows'
done
for speeds in '2 0 1 9 1,000' '2 1001 1 9 1,000' '3 5 6 17 5' '3 5 0 17 5' '3 1000 1001 17 1,000' '2 1001 1001 9 1,000'; do
    read -r field normal degraded byte most <<<"$speeds"
    { line 1 "$normal" "$degraded" 17 && line 4 1 1 0 9 9; } >speeds.sheet
    name=$([ "$field" -eq 2 ] && echo "normal speed N" || echo "degraded speed G")
    figure=$([ "$field" -eq 2 ] && echo "$normal" || echo "$degraded")
    refused_at speeds.sheet 4 "0 $field $byte 1" "where: first line, $name, byte $byte (line 1, byte $byte of it): the figure is $figure"
    also_err "allowed: 1 to $most work units per slot$([ "$field" -eq 2 ] || echo ', at most N')"
    also_err 'remedy: correct the speeds'
done
# K above its limit, whatever the row; up to it, it is taken.
for loading in 17 100 99999999; do
    { line 1 5 2 "$loading" && line 4 20 4 1 9 9; } >loading-above.sheet
    refused_at loading-above.sheet 11 '0 4 25 1' "where: first line, loading K, byte 25 (line 1, byte 25 of it): the figure is $loading"
    also_err 'number 11: K is above 16 slots'
    also_err 'allowed: 0 to 16 slots'
    also_err 'remedy: correct K; where a job really takes longer to load, split it or make the slots longer'
done
for loading in 0 1 16; do
    { line 1 5 2 "$loading" && line 0 20 26 1 0 0; } >loading-taken.sheet
    case_is 0 "place 1: row 1 (HI), slack $((16 - loading)) slots" '' plan loading-taken.sheet
done
{ line 1 5 2 17 && line 0 x 10 1 0 0; } >loading-later.sheet
refused_at loading-later.sheet 2 '1 2 49 2' "where: row 1, work, byte 49 (line 2, byte 16 of it): 'x' (byte 120) where a space or a digit belongs"
# K's field malformed.
p1 | sed '1s/       0$/      -1/' >loading-minus.sheet
refused_at loading-minus.sheet 2 '0 4 31 1' "where: first line, loading K, byte 31 (line 1, byte 31 of it): '-' (byte 45) where a space or a digit belongs"
p1 | sed '1s/       0$/        /' >loading-blank.sheet
refused_at loading-blank.sheet 2 '0 4 32 1' 'where: first line, loading K, byte 32 (line 1, byte 32 of it): a space (byte 32) where a digit belongs'
p1 | sed '1s/       0$/      02/' >loading-zero.sheet
refused_at loading-zero.sheet 2 '0 4 31 1' "where: first line, loading K, byte 31 (line 1, byte 31 of it): '0' (byte 48) where a space or a digit 1 to 9 belongs"
# A sheet from before K: 2, the field that is missing and how the sheet is brought up, which gives the sheet with K 0.
missing="hint: the field of K (loading, in slots) is missing; a sheet from before K is brought up by a field '       0' before its first line end: sed '1s/\$/       0/' SHEET"
at_loading='where: first line, loading K, byte 25 (line 1, byte 25 of it): a line end (byte 10) where a space or a digit belongs'
for sheet in p1.sheet p2.sheet p3.sheet rows64.sheet; do
    sed '1s/       0$//' "$sheet" >before.sheet
    refused_at before.sheet 2 '0 4 25 1' "$at_loading"
    case_is 2 "$missing" '' explain before.sheet
    [ "$(tail -n 1 out)" = "$missing" ] || complain "explain before.sheet: the hint is not last"
    for words in 'plan before.sheet' 'rows before.sheet' 'judge before.sheet 1' 'finishes before.sheet' 'report before.sheet' 'run before.sheet 5' \
        'speeds before.sheet' 'speeds --slacks before.sheet'; do
        # shellcheck disable=SC2086 # several words
        refusal_is 2 2 "$missing" $words
    done
    told=$(sed -n "s/.*: \(sed .*\) SHEET$/\1/p" err)
    bash -c "$told before.sheet" | cmp -s - "$sheet" || complain "$sheet from before K is not brought up by: $told"
done
# A first line from before K alone is too short, and says so as well.
p1 | head -n 1 | sed '1s/       0$//' >before-line.sheet
refused_at before-line.sheet 1 '0 4 25 1' "$at_loading"
also_err 'length: the sheet has 25 bytes; a first line alone takes 33'
also_err "$missing"
# No other sheet is said to be one from before K: not with a line end further on, a carriage return, or something malformed before.
p1 | sed '1s/.....$//' >end-in-loading.sheet
p1 | sed '1s/       0$/\r/' >before-cr.sheet
p1 | sed '1s/       0$//; 1s/^ /x/' >before-x.sheet
for file in end-in-loading.sheet before-cr.sheet before-x.sheet loading-above.sheet loading-blank.sheet cr.sheet part.sheet; do
    case_is 2 '*' '' explain "$file"
    ! grep -q '^hint: ' out || complain "explain $file: a hint"
done
# A promised part above the row's work, or on a HI row; all rows pass 5 first, and 13 comes later.
while IFS='|' read -r row why allowed; do
    # shellcheck disable=SC2086 # the figures of a row
    { line 3 5 2 16 && line 0 20 10 0 20 1 && line $row 9 && line 0 20 10 1 9 0; } >promised.sheet
    refused_at promised.sheet 12 '2 5 115 3' "where: row 2, promised part, byte 115 (line 3, byte 33 of it): the figure is $why"
    also_err 'number 12: a promised part is above its row'"'"'s work, or above 0 work units on a HI row'
    also_err "allowed: $allowed"
    also_err "remedy: promise at most the row's work, and 0 work units on a HI row, all of whose work is promised at G"
done <<'ROWS'
0 20 10 0 21|21, above the row's work of 20 work units|0 to 20 work units, at most the work
0 1000000 10 0 1000001|1000001, above the row's work of 1000000 work units|0 to 1,000,000 work units, at most the work
0 1 10 0 99999999|99999999, above the row's work of 1 work unit|0 to 1 work units, at most the work
0 20 10 1 1|1, and the row is HI|only 0 (work units) on a HI row, all of whose work is promised
0 20 10 1 20|20, and the row is HI|only 0 (work units) on a HI row, all of whose work is promised
ROWS
for promised in 0 1 20; do
    { line 1 5 5 0 && line 0 20 10 0 "$promised" 0; } >promised.sheet
    case_is 0 'place 1: row 1 (LO), slack 6 slots' '' plan promised.sheet
done
p1 | sed '3s/       0       0$/      -1       0/' >promised-minus.sheet
refused_at promised-minus.sheet 2 '2 5 121 3' "where: row 2, promised part, byte 121 (line 3, byte 39 of it): '-' (byte 45) where a space or a digit belongs"
# What a row follows: the row itself, one below it, one that is not there; one that is released later; of a HI row a LO one. In the first row at fault the
# lowest number counts, and all rows pass 12 first.
while IFS='|' read -r number row next figure why allowed; do
    # shellcheck disable=SC2086 # the figures of a row
    { line 4 5 2 0 && line 3 20 10 0 0 0 && line 0 20 10 1 0 0 && line $row && line $next; } >follows.sheet
    refused_at follows.sheet "$number" '3 6 172 4' "where: row 3, followed row, byte 172 (line 4, byte 41 of it): the figure is $figure, $why"
    also_err "allowed: $allowed"
done <<'ROWS'
13|0 20 10 0 0 3|0 20 10 0 0 0|3|which is the row itself|0 (none), or one of rows 1 to 2 that is released no later
13|0 20 10 1 0 4|0 20 10 0 0 0|4|and no row 4 stands above row 3|0 (none), or one of rows 1 to 2 that is HI and released no later
13|0 20 10 0 0 5|0 20 10 0 0 0|5|and no row 5 stands above row 3|0 (none), or one of rows 1 to 2 that is released no later
13|0 20 10 0 0 65|0 20 10 0 0 0|65|and no row 65 stands above row 3|0 (none), or one of rows 1 to 2 that is released no later
13|0 20 10 0 0 99999999|0 20 10 1 0 1|99999999|and no row 99999999 stands above row 3|0 (none), or one of rows 1 to 2 that is released no later
14|2 20 10 0 0 1|0 20 10 0 0 4|1|and row 1 is released later (in slot 3, row 3 in slot 2)|0 (none), or one of rows 1 to 2 that is released no later
14|2 20 10 1 0 1|0 20 10 0 0 4|1|and row 1 is released later (in slot 3, row 3 in slot 2)|0 (none), or one of rows 1 to 2 that is HI and released no later
15|3 20 10 1 0 1|0 20 10 0 0 1|1|and row 1 is LO and row 3 HI|0 (none), or one of rows 1 to 2 that is HI and released no later
15|9 20 10 1 0 1|0 20 10 0 0 4|1|and row 1 is LO and row 3 HI|0 (none), or one of rows 1 to 2 that is HI and released no later
ROWS
for taken in '3 20 10 0 0 1' '0 20 10 0 0 2' '0 20 10 1 0 2' '3 20 10 0 0 0'; do
    # shellcheck disable=SC2086
    { line 3 5 5 0 && line 3 20 90 0 0 0 && line 0 20 90 1 0 0 && line ${taken/10/90}; } >follows.sheet
    case_is 0 'number 0: nothing is wrong; the sheet has 3 rows and a correct order' '' explain follows.sheet
done
{ line 2 5 2 0 && line 0 20 10 0 0 1 && line 0 20 10 1 1 0; } >follows.sheet
refused_at follows.sheet 12 '2 5 115 3' 'where: row 2, promised part, byte 115 (line 3, byte 33 of it): the figure is 1, and the row is HI'
{ line 1 5 2 0 && line 0 20 10 1 0 1; } >follows.sheet
refused_at follows.sheet 13 '1 6 74 2' 'where: row 1, followed row, byte 74 (line 2, byte 41 of it): the figure is 1, which is the row itself'
also_err 'number 13: a row follows what is not a row above it in the table'
also_err 'allowed: only 0 (none): no row stands above row 1'
also_err 'remedy: let the row follow one of a lower row number, or none (0)'
p1 | sed '3s/       0$/      -1/' >follows-minus.sheet
refused_at follows-minus.sheet 2 '2 6 129 3' "where: row 2, followed row, byte 129 (line 3, byte 47 of it): '-' (byte 45) where a space or a digit belongs"
# The last of 64 rows.
sed '65s/       0$/      64/' rows64.sheet >follows.sheet
refused_at follows.sheet 13 '64 6 3161 65' 'where: row 64, followed row, byte 3161 (line 65, byte 41 of it): the figure is 64, which is the row itself'
also_err 'allowed: 0 (none), or one of rows 1 to 63 that is released no later'
# Older sheets: 1 or 2, the fields that are missing and how the sheet is brought up, which gives the sheet that has 0 in them. Each row lacks one
# field in a sheet from before rows could follow rows, two in one from before promised parts; one from before K lacks these and K.
missing_follows="hint: the field of the followed row (a row number) is missing; a sheet from before rows could follow rows is brought up by a field '       0' before the line end of each row: sed '2,\$s/\$/       0/' SHEET"
missing_promised="hint: the fields of the promised part (in work units) and of the followed row (a row number) are missing; a sheet from before both is brought up by two fields '       0' before the line end of each row: sed '2,\$s/\$/       0       0/' SHEET"
missing_all="hint: the fields of K (loading, in slots), of the promised part (in work units) and of the followed row (a row number) are missing; a sheet from before all three is brought up by a field '       0' before each line end, and another one before that of each row: sed 's/\$/       0/; 2,\$s/\$/       0/' SHEET"
missing_ends="hint: the fields of K (loading, in slots) and of the followed row (a row number) are missing; they are brought in by a field '       0' before each line end: sed 's/\$/       0/' SHEET"
brought_up() { # SHEET PLACE NUMBER HINT: older.sheet is refused with this number and hint, and is brought up to the sheet
    case_is 2 "$4" '' explain older.sheet
    also_out "$2"
    grep -q "^number $3: " out || complain "explain older.sheet: not number $3"
    [ "$(tail -n 1 out)" = "$4" ] || complain "explain older.sheet: the hint is not last"
    for words in 'plan older.sheet' 'rows older.sheet' 'judge older.sheet 1' 'finishes older.sheet' 'report older.sheet' 'run older.sheet 5' \
        'speeds older.sheet' 'speeds --slacks older.sheet'; do
        # shellcheck disable=SC2086 # several words
        refusal_is 2 "$3" "$4" $words
    done
    told=$(sed -n "s/.*: \(sed .*\) SHEET$/\1/p" err)
    bash -c "$told older.sheet" | cmp -s - "$1" || complain "$1 is not brought up by: $told"
}
at_follows='where: row 1, followed row, byte 74 (line 2, byte 41 of it): a line end (byte 10) where a space or a digit belongs'
at_promised='where: row 1, promised part, byte 66 (line 2, byte 33 of it): a line end (byte 10) where a space or a digit belongs'
for sheet in p1.sheet p2.sheet p3.sheet loading.sheet promise.sheet rows64.sheet; do
    sed '2,$s/       0$//' "$sheet" >older.sheet
    brought_up "$sheet" "$at_follows" 1 "$missing_follows"
done
for sheet in p1.sheet p2.sheet p3.sheet loading.sheet rows64.sheet; do
    sed '2,$s/       0       0$//' "$sheet" >older.sheet
    brought_up "$sheet" "$at_promised" 1 "$missing_promised"
done
for sheet in p1.sheet p2.sheet p3.sheet rows64.sheet; do
    sed '1s/       0$//; 2,$s/       0       0$//' "$sheet" >older.sheet
    brought_up "$sheet" "$at_loading" 2 "$missing_all"
    sed 's/       0$//' "$sheet" >older.sheet
    brought_up "$sheet" "$at_loading" 2 "$missing_ends"
done
# No other sheet is said to be an older one.
p1 | sed '2s/       0$//; 2s/^ /x/' >older-x.sheet
p1 | sed '2s/.....$//' >end-in-follows.sheet
p1 | sed '2s/.\{12\}$//' >end-in-promised.sheet
p1 | sed '2s/       0$/\r/' >older-cr.sheet
p1 | sed '2s/.\{24\}$//' >end-in-level.sheet
for file in older-x.sheet end-in-follows.sheet end-in-promised.sheet older-cr.sheet end-in-level.sheet promised-minus.sheet two-rows.sheet; do
    case_is 2 '*' '' explain "$file"
    ! grep -q '^hint: ' out || complain "explain $file: a hint"
done
# Field at fault, its name, byte in the line, and the row.
while read -r field name byte a c d level allowed; do
    figures=("$a" "$c" "$d" "$level")
    figure=${figures[$((field - 1))]}
    { line 3 5 2 16 && line 0 20 10 1 9 1 && line "$a" "$c" "$d" "$level" 2000000 9 && line 9 9 9 9 9 9; } >row.sheet
    refused_at row.sheet 5 "2 $field $((82 + byte)) 3" "where: row 2, $name, byte $((82 + byte)) (line 3, byte $byte of it): the figure is $figure"
    also_err "allowed: $allowed"
done <<'ROWS'
1 release 1 4 20 4 1 0 to 3 slots, below the deadline
1 release 1 99999999 20 1000000 0 0 to 999,999 slots, below the deadline
2 work 9 0 0 10 1 1 to 1,000,000 work units
2 work 9 0 1000001 10 0 1 to 1,000,000 work units
3 deadline 17 0 20 1000001 1 1 to 1,000,000 slots, above the release
3 deadline 17 7 20 0 1 8 to 1,000,000 slots, above the release
4 level 25 0 20 10 2 HI or LO (or 1 or 0)
ROWS
{ line 1 1 1 0 && line 0 1000000 1000000 0 1000000 0; } >limits.sheet
case_is 0 'place 1: row 1 (LO), slack 0 slots' '' plan limits.sheet

# ---- writing a sheet ----
case_is 0 '*' '' sheet 5 2 0 0,20,10,1 5,15,10,0 5,11,19,1 0,5,5,0
cmp -s out p1.sheet || complain "the sheet written is P1"
case_is 0 '*' '' sheet --plain 5 2 0 0,20,10,1 5,15,10,0 5,11,19,1 0,5,5,0
cmp -s out p1.sheet || complain "the sheet written is P1"
case_is 0 '*' '' sheet 5 2 0 '0, 20 ,10,HI' ' 5,15,10,lo' 5,11,19,Hi "$(printf '0,5,\t5,LO')"
cmp -s out p1.sheet || complain "the sheet written is P1"
case_is 2 '' 'where: row 1, release: the figure is 4' sheet 5 2 0 4,20,4,1
also_err 'number 5: a row has work not 1 to 1,000,000 work units, a deadline over 1,000,000 slots, a release not below its deadline or a level not 0 or 1, or a row after the last is not zero'
also_err 'allowed: 0 to 3 slots, below the deadline'
also_err 'remedy: correct the row'
case_is 2 '' 'where: row 1, release: the figure is 1' sheet 5 2 0 1,20,1,1
also_err 'allowed: only 0 (slots), below the deadline'
case_is 2 '' 'where: row 2, work: the figure is 0' sheet 5 2 0 0,20,10,1 0,0,10,1 9,9,9,9
also_err 'allowed: 1 to 1,000,000 work units'
case_is 2 '' 'where: row 1, work: the figure is 123456789' sheet 5 2 0 0,123456789,10,1
case_is 2 '' 'where: row 1, deadline: the figure is 0' sheet 5 2 0 0,1,0,1
also_err 'allowed: 1 to 1,000,000 slots, above the release'
case_is 2 '' 'where: row 1, level: the figure is 7' sheet 5 2 0 0,20,10,7
also_err 'allowed: HI or LO (or 1 or 0)'
case_is 2 '' 'where: normal speed N: the figure is 1001' sheet 1001 2 17 0,1,1,1
also_err 'allowed: 1 to 1,000 work units per slot'
case_is 2 '' 'where: normal speed N: the figure is 4294967295' sheet 4294967295 2 0 0,1,1,1
case_is 2 '' 'where: degraded speed G: the figure is 6' sheet 5 6 17 0,1,1,1
also_err 'allowed: 1 to 5 work units per slot, at most N'
case_is 2 '' 'where: degraded speed G: the figure is 2' sheet 1 2 0 0,1,1,1
also_err 'allowed: only 1 (work units per slot), at most N'
also_err 'remedy: correct the speeds'
case_is 2 '' 'where: after K: there is no row' sheet 5 2 0
also_err 'number 3: the row count is not 1 to 64'
also_err 'allowed: 1 to 64 rows'
rows+=("0,1,1,1")
case_is 2 '' 'where: row 65: there are 65 rows' sheet 5 2 0 "${rows[@]}"
also_err 'number 3: the row count is not 1 to 64'
case_is 2 '' 'where: row 65: there are 130 rows' sheet 0 0 17 "${rows[@]}" "${rows[@]}"
case_is 0 '*' '' sheet 4 2 2 0,12,13,LO 1,4,7,HI 6,4,11,HI
cmp -s out loading.sheet || complain "the sheet written is the sample with loading"
case_is 0 '       1       5       2      16' '' sheet 5 2 16 0,20,10,1
for loading in 17 4294967295; do
    case_is 2 '' "where: loading K: the figure is $loading" sheet 5 2 "$loading" 4,20,4,1
    also_err 'number 11: K is above 16 slots'
    also_err 'allowed: 0 to 16 slots'
    also_err 'remedy: correct K; where a job really takes longer to load, split it or make the slots longer'
done
no_figure='is not a whole number written with digits alone, as 1000'
# K left out, as it was before there was one.
left_out='; K is missing: write N, G and K before the rows, K as 0 where no job loads'
case_is 3 '' "jasminebrace: loading K: '0,20,10,1' $no_figure; allowed: 0 to 16 slots$left_out" sheet 5 2 0,20,10,1 5,15,10,0
case_is 3 '' "jasminebrace: loading K: nothing stands here; allowed: 0 to 16 slots$left_out" sheet 5 2
case_is 3 '' "jasminebrace: loading K: nothing stands here; allowed: 0 to 16 slots$left_out" sheet 5 2 ' ' 0,20,10,1
case_is 3 '' "jasminebrace: loading K: '1.5' $no_figure; allowed: 0 to 16 slots" sheet 5 2 1.5 0,20,10,1
case_is 3 '' "jasminebrace: loading K: '02' has a zero before its other digits; write it without; allowed: 0 to 16 slots" sheet 5 2 02 0,20,10,1
case_is 3 '' "jasminebrace: row 1, work: 'x0' $no_figure; allowed: 1 to 1,000,000 work units" sheet 5 2 0 0,x0,10,1
case_is 3 '' 'jasminebrace: row 2, work: nothing stands here; allowed: 1 to 1,000,000 work units' sheet 5 2 0 0,20,10,1 0,,10,1
case_is 3 '' "jasminebrace: row 1, release: '-1' $no_figure; allowed: 0 to 9 slots, below the deadline" sheet 5 2 0 -1,20,10,1
case_is 3 '' "jasminebrace: row 1, deadline: '010' has a zero before its other digits; write it without; allowed: 1 to 1,000,000 slots, above the release" sheet 5 2 0 0,20,010,1
case_is 3 '' "jasminebrace: row 1, level: 'H' is not a level; allowed: HI or LO (or 1 or 0)" sheet 5 2 0 0,20,10,H
case_is 3 '' "jasminebrace: normal speed N: '4294967296' is above 4294967295, the largest figure that can be read; allowed: 1 to 1,000 work units per slot" sheet 4294967296 2 0 0,1,1,1
case_is 3 '' 'jasminebrace: degraded speed G: nothing stands here; allowed: 1 to 5 work units per slot, at most N' sheet 5 ''
case_is 3 '' "jasminebrace: degraded speed G: '0x2' $no_figure; allowed: 1 to 5 work units per slot, at most N" sheet 5 0x2
# A first word that is no number may be meant as a rows file, which is given alone.
alone="$no_figure; allowed: 1 to 1,000 work units per slot; a rows file is given alone, without other arguments"
case_is 3 '' "jasminebrace: normal speed N: 'p1.csv' $alone" sheet p1.csv p1-saved.csv
case_is 3 '' "jasminebrace: normal speed N: 'p1.csv' $alone" sheet p1.csv 5 2 0,20,10,1
case_is 3 '' "jasminebrace: normal speed N: '-' $alone" sheet - p1.csv
case_is 3 '' "jasminebrace: normal speed N: '05' has a zero before its other digits; write it without; allowed: 1 to 1,000 work units per slot" sheet 05 2 0 0,20,10,1
case_is 3 '' 'jasminebrace: normal speed N: nothing stands here; allowed: 1 to 1,000 work units per slot' sheet '' p1.csv
a_row='a row is release,work,deadline,level or these and promised, or these and follows'
case_is 3 '' "jasminebrace: $a_row: '0,20,10'" sheet 5 2 0 0,20,10
case_is 3 '' "jasminebrace: $a_row: '0,20,10,1,0,0,'" sheet 5 2 0 0,20,10,1,0,0,
case_is 3 '' "jasminebrace: $a_row: ''" sheet 5 2 0 ''
# A promised part after the level; without it, or with 0, nothing is promised.
case_is 0 '*' '' sheet 4 2 0 2,8,8,HI 0,18,12,LO,12 3,4,17,LO 5,6,16,HI,0
cmp -s out promise.sheet || complain "the sheet written is the sample with a promised part"
case_is 0 '       0      20      10       0      20       0' '' sheet 5 2 0 0,20,10,LO,20
case_is 3 '' 'jasminebrace: row 1, promised part: nothing stands here; allowed: 0 to 20 work units, at most the work' sheet 5 2 0 0,20,10,0,
case_is 3 '' 'jasminebrace: row 1, promised part: nothing stands here; allowed: only 0 (work units) on a HI row, all of whose work is promised' sheet 5 2 0 0,20,10,HI,
case_is 3 '' "jasminebrace: row 1, promised part: '1.5' $no_figure; allowed: 0 to 1,000,000 work units, at most the work" sheet 5 2 0 0,1000000,10,LO,1.5
case_is 3 '' "jasminebrace: row 1, promised part: '02' has a zero before its other digits; write it without; allowed: 0 to 20 work units, at most the work" sheet 5 2 0 0,20,10,LO,02
while read -r row figure why allowed; do
    case_is 2 '' "where: row 2, promised part: the figure is $figure${why//_/ }" sheet 5 2 0 0,20,10,LO,20 "$row" 0,20,10,HI,7
    also_err 'number 12: a promised part is above its row'"'"'s work, or above 0 work units on a HI row'
    also_err "allowed: $allowed"
    also_err "remedy: promise at most the row's work, and 0 work units on a HI row, all of whose work is promised at G"
done <<'ROWS'
0,20,10,LO,21 21 ,_above_the_row's_work_of_20_work_units 0 to 20 work units, at most the work
0,1,10,LO,4294967295 4294967295 ,_above_the_row's_work_of_1_work_unit 0 to 1 work units, at most the work
0,20,10,HI,1 1 ,_and_the_row_is_HI only 0 (work units) on a HI row, all of whose work is promised
0,20,10,HI,21 21 ,_and_the_row_is_HI only 0 (work units) on a HI row, all of whose work is promised
ROWS
# Every row passes 5 before one is refused by 12.
case_is 2 '' 'where: row 2, work: the figure is 0' sheet 5 2 0 0,20,10,LO,21 0,0,10,LO
# A followed row after the promised part; without it, or with 0, the row follows none.
case_is 0 '*' '' sheet 4 2 0 0,8,12,HI 0,8,12,HI,0,1 7,6,16,LO,0,2 1,4,4,HI
cmp -s out lifting.sheet || complain "the sheet written is the sample with rows that follow rows"
case_is 0 '*' '' sheet 4 2 0 0,8,12,HI,0,0 ' 0,8,12,HI,0, 1' 7,6,16,LO,0,2 1,4,4,HI,0
cmp -s out lifting.sheet || complain "the sheet written is the sample with rows that follow rows"
case_is 3 '' 'jasminebrace: row 1, followed row: nothing stands here; allowed: only 0 (none): no row stands above row 1' sheet 5 2 0 0,20,10,0,0,
case_is 3 '' "jasminebrace: row 2, followed row: 'x' $no_figure; allowed: 0 (none), or row 1 if it is HI and released no later" sheet 5 2 0 0,20,10,0 0,20,10,1,0,x
case_is 3 '' "jasminebrace: row 2, followed row: '01' has a zero before its other digits; write it without; allowed: 0 (none), or row 1 if it is released no later" sheet 5 2 0 0,20,10,0 0,20,10,LO,0,01
while IFS='|' read -r number row figure why allowed remedy; do
    case_is 2 '' "where: row 3, followed row: the figure is $figure, $why" sheet 5 2 0 3,20,10,LO 0,20,10,HI "$row" 0,20,10,LO,0,4
    grep -q "^number $number: " err || complain "sheet, $row: not number $number"
    also_err "allowed: $allowed"
    also_err "remedy: $remedy"
done <<'ROWS'
13|0,20,10,LO,0,3|3|which is the row itself|0 (none), or one of rows 1 to 2 that is released no later|let the row follow one of a lower row number, or none (0)
13|0,20,10,HI,0,4294967295|4294967295|and no row 4294967295 stands above row 3|0 (none), or one of rows 1 to 2 that is HI and released no later|let the row follow one of a lower row number, or none (0)
14|2,20,10,LO,0,1|1|and row 1 is released later (in slot 3, row 3 in slot 2)|0 (none), or one of rows 1 to 2 that is released no later|release the row no earlier than the one that it follows, or let it follow none (0)
15|3,20,10,HI,0,1|1|and row 1 is LO and row 3 HI|0 (none), or one of rows 1 to 2 that is HI and released no later|make the followed row HI or its follower LO, or let the row follow none (0): a HI job must not wait for one that may be dropped
ROWS
# Every row passes 12 before one is refused by 13.
case_is 2 '' 'where: row 2, promised part: the figure is 21, above the row'"'"'s work of 20 work units' sheet 5 2 0 0,20,10,LO,0,1 0,20,10,LO,21

# ---- rows files ----
table_headings='normal speed N (work units per slot),degraded speed G (work units per slot),loading K (slots),,,'
row_headings='release (slots),work (work units),deadline (slots),level (HI or LO),promised (work units),follows (row or 0)'
# A rows file with the speeds and the loading of P1 and these rows, of which nothing is promised and none follows another; or these rows as they are.
rows_file() { given_rows "${@/%/,0,0}"; }
given_rows() { lines "$table_headings" 5,2,0,,, "$row_headings" "$@"; }
rows_file 0,20,10,HI 5,15,10,LO 5,11,19,HI 0,5,5,LO >expected
for words in 'rows p1.sheet' 'rows --plain p1.sheet' 'rows - --plain'; do
    case_in=p1.sheet
    # shellcheck disable=SC2086 # several words
    case_is 0 '*' '' $words
    cmp -s out expected || complain "$words: not the rows of P1"
done
case_in=/dev/null
cmp -s p1.csv expected || complain "samples/p1.csv is not what rows writes of P1"
# From a sheet to rows and back, and from these rows to a sheet and back, nothing changes.
for sheet in p1.sheet p2.sheet p3.sheet rows64.sheet loading.sheet promise.sheet lifting.sheet million.sheet slow.sheet limits.sheet; do
    case_is 0 '*' '' rows "$sheet"
    cp out there.csv
    case_is 0 '*' '' sheet there.csv
    cmp -s out "$sheet" || complain "$sheet to rows and back"
    cp out again.sheet
    case_is 0 '*' '' rows again.sheet
    cmp -s out there.csv || complain "the rows of $sheet to a sheet and back"
done

# What spreadsheet programs and hands may make of the same rows: always the sheet P1.
same_sheet() {
    cat >variant.csv
    case_is 0 '*' '' sheet variant.csv
    cmp -s out p1.sheet || complain "$1: not the sheet P1"
    case_in=variant.csv
    case_is 0 '*' '' sheet --plain -
    cmp -s out p1.sheet || complain "$1, from standard input: not the sheet P1"
    case_in=/dev/null
}
same_sheet 'as written' <p1.csv
same_sheet 'samples/p1-saved.csv' <p1-saved.csv
[ "$(head -c 4 p1-saved.csv | od -An -tu1)" = ' 239 187 191  34' ] || complain "samples/p1-saved.csv has a mark and quotes"
[ "$(grep -c $'\r$' p1-saved.csv)" -eq 8 ] || complain "samples/p1-saved.csv has eight lines with CR LF"
mark() { printf '\357\273\277'; }
quoted() { sed 's/[^,]*/"&"/g' "$@"; }
blanks() { sed $'s/,/ \t,\t /g; s/^/  /; s/$/\t/' "$@"; }
tr '\n' '\r' <p1.csv | same_sheet 'CR'
sed 's/$/\r/' p1.csv | same_sheet 'CR LF'
sed '2~2s/$/\r/' p1.csv | same_sheet 'LF and CR LF'
{ head -n 4 p1.csv | tr '\n' '\r' && tail -n 3 p1.csv; } | same_sheet 'CR and LF'
head -c -1 p1.csv | same_sheet 'no last line end'
tr '\n' '\r' <p1.csv | head -c -1 | same_sheet 'CR and no last line end'
sed 's/$/\r/' p1.csv | head -c -1 | same_sheet 'CR LF and half the last line end'
sed 's/$/\r/' p1.csv | head -c -2 | same_sheet 'CR LF and no last line end'
{ mark && cat p1.csv; } | same_sheet 'a byte order mark'
quoted p1.csv | same_sheet 'quotes'
{ mark && quoted p1.csv | sed 's/$/\r/'; } | same_sheet 'a mark, quotes and CR LF'
{ mark && quoted p1.csv | tr '\n' '\r'; } | same_sheet 'a mark, quotes and CR'
blanks p1.csv | same_sheet 'blanks around'
quoted p1.csv | blanks | same_sheet 'blanks around quotes'
sed 's/[^,]*/" &\t"/g' p1.csv | same_sheet 'blanks in quotes'
tr '[:lower:]' '[:upper:]' <p1.csv | same_sheet 'upper case'
tr '[:upper:]' '[:lower:]' <p1.csv | same_sheet 'lower case'
sed 's/HI$/1/; s/LO$/0/' p1.csv | same_sheet 'levels as figures'
sed 's/$/,,,,/' p1.csv | same_sheet 'empty cells at the end'
sed 's/$/," ",""/' p1.csv | same_sheet 'empty quoted cells at the end'
sed '1,2s/,$//' p1.csv | same_sheet 'N, G and K without an empty cell'
{ cat p1.csv && printf '\n\n , ,\t,\r\n\r""\n,,,,,,,,\n"\t"\n \t '; } | same_sheet 'empty lines at the end'
{ cat p1.csv && awk 'BEGIN { for (line = 8; line <= 1048576; line++) printf ",,,\r\n" }'; } | same_sheet '1,048,576 lines, as a spreadsheet program saves empty rows'
# The longest file that is looked at, and one byte more.
longest=16777216
{ cat p1.csv && head -c $((longest - $(wc -c <p1.csv))) /dev/zero | tr '\0' ' '; } | same_sheet 'the longest file'

# What cannot be read as a rows file: status 3 and one line with the place, what stands there and what belongs there.
untaken() {
    cat >bad.csv
    case_is 3 '' "jasminebrace: bad.csv$1" sheet bad.csv
    [ "$(wc -l <err)" -eq 1 ] || complain "sheet bad.csv: not one line"
    case_in=bad.csv
    case_is 3 '' "jasminebrace: standard input$1" sheet -
    case_in=/dev/null
}
most_work='allowed: 1 to 1,000,000 work units'
for bad in '1,000' 1.000 1.5 1e3 +5 -5 0x5 "1'000" '1 000' x five 20u '20"' '=5' ½ NaN; do
    rows_file 0,20,10,HI "5,\"${bad//\"/\"\"}\",10,LO" | untaken ", line 5, column 2 (work, in work units): '$bad' $no_figure; $most_work"
done
for bad in '' ' ' '""' '" "'; do
    rows_file 0,20,10,HI "5,$bad,10,LO" | untaken ", line 5, column 2 (work, in work units): nothing stands here; $most_work"
done
for bad in 00 020 0000000000000000000000020; do
    rows_file "0,$bad,10,HI" | untaken ", line 4, column 2 (work, in work units): '$bad' has a zero before its other digits; write it without; $most_work"
done
for bad in 4294967296 18446744073709551617 99999999999999999999999999999999; do
    rows_file "0,$bad,10,HI" | untaken ", line 4, column 2 (work, in work units): '$bad' is above 4294967295, the largest figure that can be read; $most_work"
done
# A release is named with the deadline that stands beside it, a deadline with the release, if that can be one.
while IFS='|' read -r row allowed; do
    rows_file "$row" | untaken ", line 4, column 1 (release, in slots): 'x' $no_figure; allowed: $allowed, below the deadline"
done <<'ROWS'
x,20,10,HI|0 to 9 slots
x,20,2,HI|0 to 1 slots
x,20,1,HI|only 0 (slots)
x,20,0,HI|0 to 999,999 slots
x,20,,HI|0 to 999,999 slots
x,20,010,HI|0 to 999,999 slots
x,20,y,z|0 to 999,999 slots
x,20,999999,HI|0 to 999,998 slots
x,20,1000000,HI|0 to 999,999 slots
x,20,1000001,HI|0 to 999,999 slots
x,20,4294967295,HI|0 to 999,999 slots
ROWS
while IFS='|' read -r row allowed; do
    rows_file "$row" | untaken ", line 4, column 3 (deadline, in slots): 'ten' $no_figure; allowed: $allowed, above the release"
done <<'ROWS'
0,20,ten,HI|1 to 1,000,000 slots
7,20,ten,HI|8 to 1,000,000 slots
999998,20,ten,HI|999,999 to 1,000,000 slots
999999,20,ten,HI|only 1,000,000 (slots)
1000000,20,ten,HI|1 to 1,000,000 slots
4294967295,20,ten,HI|1 to 1,000,000 slots
ROWS
levels='allowed: HI or LO (or 1 or 0)'
for bad in high H L lO1 'HI LO' -1 1.0 yes; do
    rows_file "0,20,10,$bad" | untaken ", line 4, column 4 (level): '$bad' is not a level; $levels"
done
rows_file 0,20,10,01 | untaken ", line 4, column 4 (level): '01' has a zero before its other digits; write it without; $levels"
given_rows 0,20,10 | untaken ", line 4, column 4 (level): nothing stands here; $levels"
given_rows 0,20,10,HI,0,0 7 | untaken ", line 5, column 2 (work, in work units): nothing stands here; $most_work"
lines "$table_headings" 5.5,2,0, "$row_headings" 0,20,10,HI | untaken ", line 2, column 1 (normal speed N, in work units per slot): '5.5' $no_figure; allowed: 1 to 1,000 work units per slot"
while IFS='|' read -r normal allowed; do
    lines "$table_headings" "$normal" "$row_headings" 0,20,10,HI |
        untaken ", line 2, column 2 (degraded speed G, in work units per slot): nothing stands here; allowed: $allowed, at most N"
done <<'SPEEDS'
5|1 to 5 work units per slot
1|only 1 (work units per slot)
1000|1 to 1,000 work units per slot
0|1 to 1,000 work units per slot
1001|1 to 1,000 work units per slot
SPEEDS
at_most_loading='allowed: 0 to 16 slots'
lines "$table_headings" 5,2 "$row_headings" 0,20,10,HI | untaken ", line 2, column 3 (loading K, in slots): nothing stands here; $at_most_loading"
lines "$table_headings" 5,2,x, "$row_headings" 0,20,10,HI | untaken ", line 2, column 3 (loading K, in slots): 'x' $no_figure; $at_most_loading"
lines "$table_headings" 5,2,0x1, "$row_headings" 0,20,10,HI | untaken ", line 2, column 3 (loading K, in slots): '0x1' $no_figure; $at_most_loading"
lines "$table_headings" 5,2,00, "$row_headings" 0,20,10,HI |
    untaken ", line 2, column 3 (loading K, in slots): '00' has a zero before its other digits; write it without; $at_most_loading"
# A rows file from before K, and how it is brought up.
no_loading="nothing stands where the heading 'loading K (slots)' belongs; a rows file from before K has no such column: write this heading here and 0 (slots, no loading) in line 2, column 3"
before() { sed '1s/loading K (slots)//; 2s/,0,/,,/' "$@"; }
before p1.csv | untaken ", line 1, column 3: $no_loading"
before p1.csv | sed '1,2s/,,,$//' | untaken ", line 1, column 3: $no_loading"
sed 's/"loading K (slots)"//; 2s/,0,/,,/' p1-saved.csv | untaken ", line 1, column 3: $no_loading"
before p1.csv | sed '1s/,,,,$/,loading K (slots),,,/; 2s/,,,,$/,0,,,/' | same_sheet 'from before K, brought up'
# A rows file from before rows could follow rows has no column for that, and in it none does; one from before promised parts has no column for them
# either, and promises none. Nothing may stand in such a column without its heading.
unfollowed() { sed 's/,[^,]*$//' "$@"; }
older() { sed 's/,[^,]*,[^,]*$//' "$@"; }
for before_it in unfollowed older; do
    $before_it p1.csv | same_sheet "$before_it"
    $before_it p1.csv | sed '1,2s/,*$//' | same_sheet "$before_it, N, G and K without an empty cell"
    $before_it p1-saved.csv | sed 's/$/\r/' | same_sheet "$before_it, as a spreadsheet program saves it"
    $before_it p1.csv | sed 's/$/,/' | same_sheet "$before_it, with an empty column"
    $before_it p1.csv | sed 's/$/,,/' | same_sheet "$before_it, with two empty columns"
done
no_heading() { echo "line 3 has no heading '$1' in column $2, and without it nothing is allowed after column $(($2 - 1))"; }
no_promised=$(no_heading 'promised (work units)' 5)
no_follows=$(no_heading 'follows (row or 0)' 6)
one_too_many='delete the cell that is one too many; if a figure was written with a comma, as 1,000, write 1000'
older p1.csv | sed '5s/$/,4/' | untaken ", line 5, column 5 (promised part, in work units): '4' stands here; $no_promised: $one_too_many"
older p1.csv | sed '5s/$/,,1/' | untaken ", line 5, column 6 (followed row): '1' stands here; $no_promised: $one_too_many"
older p1.csv | sed '5s/15/1,500/' | untaken ", line 5, column 5 (promised part, in work units): 'LO' stands here; $no_promised: $one_too_many"
older p1.csv | sed '3s/$/,,,note/' | untaken ", line 3, column 7: 'note' stands here; $no_promised: delete this column"
unfollowed p1.csv | sed '5s/$/,1/' | untaken ", line 5, column 6 (followed row): '1' stands here; $no_follows: $one_too_many"
unfollowed p1.csv | sed '5s/15/1,500/' | untaken ", line 5, column 6 (followed row): '0' stands here; $no_follows: $one_too_many"
unfollowed p1.csv | sed '3s/$/,,note/' | untaken ", line 3, column 7: 'note' stands here; $no_follows: delete this column"
is_elsewhere() { echo "nothing stands where the heading '$1' belongs; that heading stands in column $2: move its column here, or delete what stands before it"; }
older p1.csv | sed '3s/$/,,promised (work units)/' | untaken ", line 3, column 5: $(is_elsewhere 'promised (work units)' 6)"
unfollowed p1.csv | sed '3s/$/,,follows (row or 0)/' | untaken ", line 3, column 6: $(is_elsewhere 'follows (row or 0)' 7)"
older p1.csv | sed '3s/$/,,follows (row or 0)/' | untaken ", line 3, column 5: nothing stands where the heading 'promised (work units)' belongs"
older p1.csv | sed '3s/$/,follows (row or 0)/' | untaken ", line 3, column 5: 'follows (row or 0)' stands where the heading 'promised (work units)' belongs"
older p1.csv | sed '3s/$/,comment/' | untaken ", line 3, column 5: 'comment' stands where the heading 'promised (work units)' belongs"
unfollowed p1.csv | sed '3s/$/,comment/' | untaken ", line 3, column 6: 'comment' stands where the heading 'follows (row or 0)' belongs"
sed '3s/promised (work units)/promised/' p1.csv | untaken ", line 3, column 5: 'promised' stands where the heading 'promised (work units)' belongs"
sed '3s/follows (row or 0)/follows/' p1.csv | untaken ", line 3, column 6: 'follows' stands where the heading 'follows (row or 0)' belongs"
# With its heading the column is filled: with 0 in HI rows, and with 0 where a row follows none.
given_rows 0,20,10,HI,0,0 5,15,10,LO,,0 | untaken ', line 5, column 5 (promised part, in work units): nothing stands here; allowed: 0 to 15 work units, at most the work'
given_rows 0,20,10,HI,,0 | untaken ', line 4, column 5 (promised part, in work units): nothing stands here; allowed: only 0 (work units) on a HI row, all of whose work is promised'
given_rows 0,20,10,LO,-1,0 | untaken ", line 4, column 5 (promised part, in work units): '-1' $no_figure; allowed: 0 to 20 work units, at most the work"
given_rows 0,x,10,LO,y,z | untaken ", line 4, column 2 (work, in work units): 'x' $no_figure; $most_work"
given_rows 0,20,10,LO,0,z | untaken ", line 4, column 6 (followed row): 'z' $no_figure; allowed: only 0 (none): no row stands above row 1"
given_rows 0,20,10,HI,0,0 5,15,10,LO,0, | untaken ', line 5, column 6 (followed row): nothing stands here; allowed: 0 (none), or row 1 if it is released no later'
given_rows 0,20,10,HI,0,0 5,15,10,HI,0,01 | untaken ", line 5, column 6 (followed row): '01' has a zero before its other digits; write it without; allowed: 0 (none), or row 1 if it is HI and released no later"
given_rows 0,20,10,HI,0,0 5,15,10,LO,0,1 5,15,10,LO,0,-1 | untaken ", line 6, column 6 (followed row): '-1' $no_figure; allowed: 0 (none), or one of rows 1 to 2 that is released no later"
given_rows 0,20,10,HI,0,0 5,15,10,LO,0,1 5,15,10,1,0,lift | untaken ", line 6, column 6 (followed row): 'lift' $no_figure; allowed: 0 (none), or one of rows 1 to 2 that is HI and released no later"
given_rows 0,20,10,HI,0,0 5,15,10,HI,0,1 0,5,5,LO,0,1 >follows.csv
case_is 0 '       5      15      10       1       0       1' '' sheet follows.csv
also_out '       0       5       5       0       0       1'
# Cells after the last column; a figure with a comma in it moves others there.
three='stands here; N, G and K use 3 of the 6 columns, and nothing is allowed after column 3'
six='stands here; a rows file has 6 columns, and nothing is allowed after column 6'
many='delete the cell that is one too many; if a figure was written with a comma, as 1,000, write 1000'
for row in 0,1,000,10,HI 1,000,20,10,HI 0,20,1,000,HI 0,1,500,10,HI ,1,000,10,HI; do
    rows_file "$row" | untaken ", line 4, column 7: '0' $six: $many"
done
rows_file 0,1,000,000,10,HI | untaken ", line 4, column 7: '0' $six: $many"
rows_file 0,1,500,1,500,HI | untaken ", line 4, column 7: '0' $six: $many"
rows_file 0,1,500,1,500,7,HI | untaken ", line 4, column 7: 'HI' $six: $many"
given_rows 0,20,10,HI,0,0 5,15,10,LO,0,1,000 | untaken ", line 5, column 7: '000' $six: $many"
given_rows 0,20,10,HI,0,0 5,15,10,LO,1,000,0 | untaken ", line 5, column 7: '0' $six: $many"
given_rows 0,20,10,HI,0,0 5,15,10,LO,0,0,,,a,b | untaken ", line 5, column 9: 'a' $six: $many"
given_rows 0,1,500,1,500,HI | untaken ", line 4, column 6 (followed row): 'HI' $no_figure; allowed: only 0 (none): no row stands above row 1"
given_rows 0,1,500,10,HI | untaken ", line 4, column 5 (promised part, in work units): 'HI' $no_figure; allowed: 0 to 1 work units, at most the work"
lines "$table_headings" 5,2,3,4 | untaken ", line 2, column 4: '4' $three: $many"
lines "$table_headings" 1,000,2,0, | untaken ", line 2, column 4: '0' $three: $many"
lines "$table_headings" '5,2,0,measured in May' | untaken ", line 2, column 4: 'measured in May' $three: $many"
lines "$table_headings" '5,2,,measured in May' | untaken ", line 2, column 4: 'measured in May' $three: $many"
lines "$table_headings" 5,2,0,,x | untaken ", line 2, column 5: 'x' $three: $many"
lines "$table_headings" 5,2,0,,,x | untaken ", line 2, column 6: 'x' $three: $many"
lines "$table_headings" 5,2,0,,,,x | untaken ", line 2, column 7: 'x' $six: $many"
lines "${table_headings%,,}n" 5,2,0 | untaken ", line 1, column 4: 'n' $three: delete this cell"
lines "${table_headings%,}n" 5,2,0 | untaken ", line 1, column 5: 'n' $three: delete this cell"
lines "${table_headings}n" 5,2,0 | untaken ", line 1, column 6: 'n' $three: delete this cell"
lines "$table_headings,notes" 5,2,0 | untaken ", line 1, column 7: 'notes' $six: delete this column"
sed 's/$/,note/' p1.csv | untaken ", line 1, column 7: 'note' $six: delete this column"
lines "$table_headings" 5,2,0 "$row_headings,comment" | untaken ", line 3, column 7: 'comment' $six: delete this column"
# Row numbers and names of jobs beside the rows alone.
rows_file 1,0,20,10,HI | untaken ", line 4, column 7: '0' $six: $many"
rows_file pen,0,20,10,HI | untaken ", line 4, column 1 (release, in slots): 'pen' $no_figure; allowed: 0 to 19 slots, below the deadline"
given_rows 0,20,10,HI,0,0,pen | untaken ", line 4, column 7: 'pen' $six: $many"
# Headings: other columns, moved ones, other units, none.
no_normal="stands where the heading 'normal speed N (work units per slot)' belongs"
moved() { echo "; that heading stands in column $1: move its column here, or delete what stands before it"; }
sed 's/^/,/' p1.csv | untaken ", line 1, column 1: nothing $no_normal$(moved 2)"
sed 's/^/job,/' p1.csv | untaken ", line 1, column 1: 'job' $no_normal$(moved 2)"
sed 's/^/,,,,,/' p1.csv | untaken ", line 1, column 1: nothing $no_normal$(moved 6)"
sed 's/\(.*\),\(.*\)/\2,\1/' p1.csv | untaken ", line 1, column 1: nothing $no_normal$(moved 2)"
sed '3,$s/^/job,/' p1.csv | untaken ", line 3, column 1: 'job' stands where the heading 'release (slots)' belongs$(moved 2)"
lines "$table_headings" 5,2,0 'release (slots),deadline (slots),work (work units),level (HI or LO)' 0,10,20,HI |
    untaken ", line 3, column 2: 'deadline (slots)' stands where the heading 'work (work units)' belongs$(moved 3)"
lines "$table_headings" 5,2,0 'level (HI or LO),release (slots),work (work units),deadline (slots)' HI,0,20,10 |
    untaken ", line 3, column 1: 'level (HI or LO)' stands where the heading 'release (slots)' belongs$(moved 2)"
lines "$table_headings" 5,2,0 'release (slots),work (ms),deadline (slots),level (HI or LO)' |
    untaken ", line 3, column 2: 'work (ms)' stands where the heading 'work (work units)' belongs"
lines "$table_headings" 5,2,0 'release (slots),work (work units),deadline (slots)' |
    untaken ", line 3, column 4: nothing stands where the heading 'level (HI or LO)' belongs"
lines 'normal speed N (work units per slot)' 5,2 | untaken ", line 1, column 2: nothing stands where the heading 'degraded speed G (work units per slot)' belongs"
lines "${table_headings/loading K (slots)/loading K (ms)}" 5,2,0 | untaken ", line 1, column 3: 'loading K (ms)' stands where the heading 'loading K (slots)' belongs"
lines "${table_headings/loading/,loading}" 5,2,,0 | untaken ", line 1, column 3: nothing stands where the heading 'loading K (slots)' belongs$(moved 4)"
lines 'normal speed N (work units per slot),loading K (slots),degraded speed G (work units per slot),' 5,0,2 |
    untaken ", line 1, column 2: 'loading K (slots)' stands where the heading 'degraded speed G (work units per slot)' belongs$(moved 3)"
lines "$row_headings" 0,20,10,HI | untaken ", line 1, column 1: 'release (slots)' $no_normal"
{ echo '# jobs of May' && cat p1.csv; } | untaken ", line 1, column 1: '# jobs of May' $no_normal"
lines 'N,G' 5,2 | untaken ", line 1, column 1: 'N' $no_normal"
lines 'normal speed N (work units per slot)s,x' | untaken ", line 1, column 1: 'normal speed N (work units per slot)s' $no_normal"
lines "$table_headings" 5,2,0, 0,20,10,HI | untaken ", line 3, column 1: '0' stands where the heading 'release (slots)' belongs"
sed 2d p1.csv | untaken ", line 2, column 1 (normal speed N, in work units per slot): 'release (slots)' $no_figure; allowed: 1 to 1,000 work units per slot"
# Empty lines before others, and files that end too early.
given_rows 0,20,10,HI,0,0 ' ,"",' '' 5,15,10,LO,0,0 | untaken ', line 5: this line is empty, and line 7 is not; delete the empty line'
{ echo && cat p1.csv; } | untaken ', line 1: this line is empty, and line 2 is not; delete the empty line'
sed 's/$/\n/' p1.csv | untaken ', line 2: this line is empty, and line 3 is not; delete the empty line'
sed 's/$/\r\r/' p1.csv | untaken ', line 2: this line is empty, and line 3 is not; delete the empty line'
lines "$table_headings" | untaken ', line 2: the file ends where the speeds N and G and the loading K belong, as 5,2,0 (work units per slot; slots)'
lines "$table_headings" 5,2,0 '' ,, | untaken ", line 3: the file ends where the headings of the rows belong: $row_headings"
for text in '' '\n' '\r\n,,,\r\n' '\357\273\277' '\357\273\277\n'; do
    # shellcheck disable=SC2059 # escapes are meant
    printf "$text" | untaken ": the file is empty; 'jasminebrace rows SHEET' shows what a rows file looks like"
done
# Quotes; a line break in a cell, as spreadsheet programs take it.
open='the double quote that opens this cell is not closed in its line, or a line break stands inside the cell; write the cell in one line, with both its quotes or with none'
rows_file '0,"20,10,HI' | untaken ", line 4, column 2 (work, in work units): $open"
rows_file '0,20,10,"HI' '5,15,10,"LO' | untaken ", line 4, column 4 (level): $open"
rows_file '0,"2""0,10,HI' | untaken ", line 4, column 2 (work, in work units): $open"
rows_file '0,20,10,"HI' '"' | untaken ", line 4, column 4 (level): $open"
sed '3s/work (/work\n(/; 3s/[^,]*/"&"/g' p1.csv | untaken ", line 3, column 2: $open"
rows_file '0,20,10,"' | untaken ", line 4, column 4 (level): $open"
rows_file '0,"2"0,10,HI' | untaken ', line 4, column 2 (work, in work units): text follows the closing double quote; write a double quote inside a quoted cell twice'
rows_file '0,20,10,"HI" "LO"' | untaken ', line 4, column 4 (level): text follows the closing double quote; write a double quote inside a quoted cell twice'
rows_file '0,"2""0",10,HI' | untaken ", line 4, column 2 (work, in work units): '2\"0' $no_figure; $most_work"
lines "\"$table_headings" | untaken ", line 1, column 1: $open"
# Other separators, other kinds of files.
separated='save the file with commas between the cells'
tr ',' ';' <p1.csv | untaken ", line 1: the cells are separated by ';'; $separated"
{ mark && quoted p1.csv | sed 's/,/;/g; s/$/\r/'; } | untaken ", line 1: the cells are separated by ';'; $separated"
tr ',' '\t' <p1.csv | untaken ", line 1: the cells are separated by tabs; $separated"
given_rows 0,20,10,HI,0,0 '5;15;10;LO;0;0' | untaken ", line 5: the cells are separated by ';'; $separated"
{ printf '\377\376' && sed 's/./&\x00/g; s/$/\x00/' p1.csv; } | untaken ': this is text in UTF-16; save it as CSV in UTF-8, with commas between the cells'
{ printf '\376\377' && sed 's/./\x00&/g' p1.csv; } | untaken ': this is text in UTF-16; save it as CSV in UTF-8, with commas between the cells'
wide='this is text in UTF-32; save it as CSV in UTF-8, with commas between the cells'
{ printf '\377\376\0\0' && sed 's/./&\x00\x00\x00/g; s/$/\x00\x00\x00/' p1.csv; } | untaken ": $wide"
{ printf '\0\0\376\377' && sed 's/./\x00\x00\x00&/g' p1.csv; } | untaken ": $wide"
sed 's/./&\x00/g' p1.csv | untaken ', line 1, column 1: a byte 0 stands here, which no text has; save the file as CSV in UTF-8'
rows_file 0,20,10,HI | sed '4s/20/2\x000/' | untaken ', line 4, column 2 (work, in work units): a byte 0 stands here, which no text has; save the file as CSV in UTF-8'
own="this is a spreadsheet program's own file, or an archive; save it as CSV, with commas between the cells"
{ printf 'PK\003\004' && head -c 2000000 /dev/zero; } | untaken ": $own"
printf '\320\317\021\340\241\261\032\341' | untaken ": $own"
for sheet in p1.sheet rows64.sheet loading.sheet two-rows.sheet row-after.sheet count.sheet letter.sheet loading-above.sheet before.sheet before-line.sheet; do
    untaken ": this is a sheet and not a rows file; 'jasminebrace rows SHEET' makes a rows file of it" <"$sheet"
done
{ cat p1.csv && head -c $((longest + 1 - $(wc -c <p1.csv))) /dev/zero | tr '\0' ' '; } |
    untaken ': the file has more than 16,777,216 bytes, which is the most that is allowed; delete the empty rows below the last row and save it again'
# What stands in a cell is shown so that nothing in it is lost or does harm; of a long text the beginning.
rows_file $'0,\e[2J20,10,HI' | untaken ", line 4, column 2 (work, in work units): '<byte 27>[2J20' $no_figure; $most_work"
rows_file $'0,1\302\240000,10,HI' | untaken ", line 4, column 2 (work, in work units): '1<U+00A0>000' $no_figure; $most_work"
rows_file $'0,1\342\200\257000,10,HI' | untaken ", line 4, column 2 (work, in work units): '1<U+202F>000' $no_figure; $most_work"
rows_file $'0,2\3510\300\257,10,HI' | untaken ", line 4, column 2 (work, in work units): '2<byte 233>0<byte 192><byte 175>' $no_figure; $most_work"
rows_file $'0,\340\200\257\360\237\230,10,HI' | untaken ", line 4, column 2 (work, in work units): '<byte 224><byte 128><byte 175><byte 240><byte 159><byte 152>' $no_figure; $most_work"
rows_file '0,zwanzig für Ärger 漢 😀,10,HI' | untaken ", line 4, column 2 (work, in work units): 'zwanzig für Ärger 漢 😀' $no_figure; $most_work"
long=$(printf '9%.0s' {1..70})
rows_file "0,$long,10,HI" | untaken ", line 4, column 2 (work, in work units): '${long:0:61}..' is above 4294967295, the largest figure that can be read; $most_work"

# What the archive refuses: status 2, its number, the place, what is allowed and the remedy.
refused_rows() { # NUMBER PLACE ALLOWED
    cat >refused.csv
    case_is 2 '' "where: refused.csv, $2" sheet refused.csv
    also_err "allowed: $3"
    grep -q "^number $1: " err || complain "sheet refused.csv: not number $1"
    grep -q '^remedy: ' err || complain "sheet refused.csv: no remedy"
    [ "$(wc -l <err)" -eq 4 ] || complain "sheet refused.csv: not four lines"
    case_in=refused.csv
    case_is 2 '' "where: standard input, $2" sheet -
    case_in=/dev/null
}
while IFS='|' read -r row place allowed; do
    rows_file 0,20,10,HI "$row" 9,9,9,9 | refused_rows 5 "line 5, $place" "$allowed"
done <<'ROWS'
4,20,4,HI|column 1 (release, in slots): the figure is 4|0 to 3 slots, below the deadline
1,20,1,HI|column 1 (release, in slots): the figure is 1|only 0 (slots), below the deadline
4294967295,20,1000000,LO|column 1 (release, in slots): the figure is 4294967295|0 to 999,999 slots, below the deadline
0,0,10,HI|column 2 (work, in work units): the figure is 0|1 to 1,000,000 work units
0,1000001,10,LO|column 2 (work, in work units): the figure is 1000001|1 to 1,000,000 work units
0,4294967295,10,LO|column 2 (work, in work units): the figure is 4294967295|1 to 1,000,000 work units
0,20,1000001,HI|column 3 (deadline, in slots): the figure is 1000001|1 to 1,000,000 slots, above the release
7,20,1000001,HI|column 3 (deadline, in slots): the figure is 1000001|8 to 1,000,000 slots, above the release
999999,20,1000001,HI|column 3 (deadline, in slots): the figure is 1000001|only 1,000,000 (slots), above the release
1000000,20,1000001,HI|column 3 (deadline, in slots): the figure is 1000001|1 to 1,000,000 slots, above the release
0,20,0,HI|column 3 (deadline, in slots): the figure is 0|1 to 1,000,000 slots, above the release
7,20,0,HI|column 3 (deadline, in slots): the figure is 0|8 to 1,000,000 slots, above the release
0,20,10,2|column 4 (level): the figure is 2|HI or LO (or 1 or 0)
ROWS
while IFS='|' read -r row place allowed; do
    given_rows 0,20,10,LO,20,0 "$row,7" 0,20,10,HI,7,0 | refused_rows 12 "line 5, column 5 (promised part, in work units): the figure is $place" "$allowed"
done <<'ROWS'
0,20,10,LO,21|21, above the row's work of 20 work units|0 to 20 work units, at most the work
0,20,10,LO,4294967295|4294967295, above the row's work of 20 work units|0 to 20 work units, at most the work
0,20,10,HI,1|1, and the row is HI|only 0 (work units) on a HI row, all of whose work is promised
ROWS
while IFS='|' read -r number row place allowed; do
    given_rows 3,20,10,LO,0,0 "$row" 0,20,10,HI,0,1 | refused_rows "$number" "line 5, column 6 (followed row): the figure is $place" "$allowed"
done <<'ROWS'
13|0,20,10,LO,0,2|2, which is the row itself|0 (none), or row 1 if it is released no later
13|0,20,10,HI,0,4294967295|4294967295, and no row 4294967295 stands above row 2|0 (none), or row 1 if it is HI and released no later
14|1,20,10,HI,0,1|1, and row 1 is released later (in slot 3, row 2 in slot 1)|0 (none), or row 1 if it is HI and released no later
15|3,20,10,HI,0,1|1, and row 1 is LO and row 2 HI|0 (none), or row 1 if it is HI and released no later
ROWS
given_rows 0,20,10,LO,0,1 0,20,10,HI,1,0 | refused_rows 12 'line 5, column 5 (promised part, in work units): the figure is 1, and the row is HI' 'only 0 (work units) on a HI row, all of whose work is promised'
given_rows 0,20,10,LO,21,1 0,0,10,LO,0,2 | refused_rows 5 'line 5, column 2 (work, in work units): the figure is 0' '1 to 1,000,000 work units'
while IFS='|' read -r speeds place allowed; do
    lines "$table_headings" "$speeds,17" "$row_headings" 9,9,9,9,9,9 | refused_rows 4 "line 2, $place" "$allowed"
done <<'SPEEDS'
0,1|column 1 (normal speed N, in work units per slot): the figure is 0|1 to 1,000 work units per slot
1001,1|column 1 (normal speed N, in work units per slot): the figure is 1001|1 to 1,000 work units per slot
1001,1001|column 1 (normal speed N, in work units per slot): the figure is 1001|1 to 1,000 work units per slot
5,6|column 2 (degraded speed G, in work units per slot): the figure is 6|1 to 5 work units per slot, at most N
5,0|column 2 (degraded speed G, in work units per slot): the figure is 0|1 to 5 work units per slot, at most N
1000,1001|column 2 (degraded speed G, in work units per slot): the figure is 1001|1 to 1,000 work units per slot, at most N
1,2|column 2 (degraded speed G, in work units per slot): the figure is 2|only 1 (work units per slot), at most N
SPEEDS
for loading in 17 18 4294967295; do
    lines "$table_headings" "5,2,$loading" "$row_headings" 9,9,9,9,9,9 |
        refused_rows 11 "line 2, column 3 (loading K, in slots): the figure is $loading" '0 to 16 slots'
done
lines "$table_headings" 5,2,16 "$row_headings" 0,20,10,HI,0,0 >loading.csv
case_is 0 '       1       5       2      16' '' sheet loading.csv
lines "$table_headings" 0,0,17 "$row_headings" | refused_rows 3 'line 4: there is no row' '1 to 64 rows'
lines "$table_headings" 5,2,0 "$row_headings" ,,, '' | refused_rows 3 'line 4: there is no row' '1 to 64 rows'
many=()
for ((row = 1; row <= 64; row++)); do many+=("$((row - 1)),$row,$((1000000 - row)),$([ $((row % 2)) -eq 0 ] && echo HI || echo LO)"); done
rows_file "${many[@]}" >many.csv
case_is 0 '      64       5       2       0' '' sheet many.csv
case_is 0 '*' '' rows <("$command" sheet many.csv)
cmp -s out many.csv || complain "64 rows to a sheet and back"
rows_file "${many[@]}" 0,20,10,HI | refused_rows 3 'line 68: this is row 65, and there are 65 rows' '1 to 64 rows'
rows_file "${many[@]}" "${many[@]}" 9,9,9,9 | refused_rows 3 'line 68: this is row 65, and there are 129 rows' '1 to 64 rows'
rows_file "${many[@]}" "${many[@]}" 9,9,9,x | untaken ", line 132, column 4 (level): 'x' is not a level; $levels"
lines "$table_headings" 1000,1000,16 "$row_headings" 999999,1000000,1000000,LO,1000000,0 0,1,1,HI,0,0 >limits.csv
case_is 0 '  999999 1000000 1000000       0 1000000       0' '' sheet limits.csv

# A rows file where a sheet belongs: the refusal is that of other bytes, and a line beside it says what to do.
hint="hint: this is a rows file; 'jasminebrace sheet ROWS.csv' makes a sheet of it"
hinted() { # BYTE of the sheet that is at fault
    cat >given.csv
    case_is 2 "$hint" '' explain given.csv
    grep -q '^number 2: ' out || complain "explain given.csv: not number 2"
    [ "$(tail -n 1 out)" = "$hint" ] || complain "explain given.csv: the hint is not last"
    case_is 2 "       2       0       1$(printf '%8s' "$1")       1" '' explain --plain given.csv
    [ "$(wc -l <out)" -eq 1 ] || complain "explain --plain given.csv: not one line"
    refusal_is 2 2 "$hint" plan given.csv
    case_is 2 '       2       0' "$hint" plan --plain given.csv
    case_is 2 '' "$hint" rows given.csv
    refusal_is 2 2 "$hint" judge given.csv 1
    case_is 2 '       2       0' "$hint" finishes --plain given.csv
    case_is 2 '' "$hint" report given.csv
    case_is 2 '' "$hint" count given.csv
    case_is 2 '' "$hint" left given.csv
    case_is 2 '' "$hint" speeds given.csv
    case_is 2 '' "$hint" run given.csv 5
}
hinted 1 <p1.csv
hinted 1 <p1-saved.csv
hinted 1 <many.csv
quoted p1.csv | hinted 1
quoted p1.csv | sed 's/"/" /g' | hinted 1
{ mark && cat p1.csv; } | hinted 1
tr '[:lower:]' '[:upper:]' <p1.csv | hinted 1
tr '[:upper:]' '[:lower:]' <p1.csv | tr ',' ';' | hinted 1
sed 's/^/  /' p1.csv | hinted 3
lines "$table_headings" | hinted 1
# No other refusal has the hint: not that of a sheet, of other text, or of the beginning of a heading alone.
printf '%s' "${table_headings:0:35}" >heading.csv
for file in letter.sheet mark.sheet empty.sheet heading.csv; do
    case_is 2 '*' '' explain "$file"
    ! grep -q '^hint: ' out || complain "explain $file: a hint"
done
case_is 1 '*' '' explain p3.sheet
! grep -q '^hint: ' out || complain "explain p3.sheet: a hint"

# ---- verdicts as sentences ----
# Where both streams go to one place the sentence comes first, before the explanation on standard error.
for words in 'plan p3.sheet' 'plan --ceiling 5 p1.sheet' 'judge p1.sheet 1 1 3 4' 'plan letter.sheet' 'judge letter.sheet 1'; do
    cases=$((cases + 1))
    # shellcheck disable=SC2086 # several words
    { "$command" $words || true; } >out 2>&1
    head -n 1 out | "$command" read-sentence - >/dev/null 2>err || complain "$words: the sentence is not first"
    [ "$(wc -l <out)" -gt 2 ] || complain "$words: no explanation after the sentence"
done
# Where arguments or a file cannot be used no answer is told.
case_is 3 '' 'jasminebrace: nowhere.sheet cannot be opened: No such file or directory' judge nowhere.sheet 1
case_is 3 '' 'jasminebrace: nowhere.sheet cannot be opened: No such file or directory' plan --ceiling 5 nowhere.sheet
# Read back: every figure with its name, in words and as figures for a script.
read_back_as() { # FILE FIGURES: standard input has the lines
    cat >expected
    case_is 0 '*' '' read-sentence "$1"
    cmp -s out expected || complain "read-sentence $1: not as it should be"
    case_is 0 "$2" '' read-sentence --plain "$1"
    [ "$(wc -l <out)" -eq 1 ] || complain "read-sentence --plain $1: not one line"
}
"$command" plan p1.sheet | sed -n 1p >p1.sentence
read_back_as p1.sentence '0 1 0 6 0 0 0 4 0 1 2 3 4' <<'ANSWER'
answer of: the planner
number 0: success
trials made: 6 trials
order: 4 rows, highest first: 1 2 3 4
rows left: 0 rows
ANSWER
{ "$command" plan p3.sheet 2>err || true; } | tr -d '\n' >p3.sentence
read_back_as p3.sentence '0 1 7 2 0 0 0 0 2 1 2' <<'ANSWER'
answer of: the planner
number 7: no correct order exists
trials made: 2 trials
order: 0 rows
rows left: 2 rows: 1 2
ANSWER
{ "$command" judge p1.sheet 4 3 2 1 || true; } | sed -n '1s/$/\r/p' >no.sentence
read_back_as no.sentence '0 2 0 0 0 1 -10 0 0' <<'ANSWER'
answer of: the judge
number 0: success
correct: no
tightest row: 1
slack: -10 slots
ANSWER
{ "$command" judge p1.sheet 1,1,3,4 2>err || true; } >six.sentence
read_back_as six.sentence '0 2 6 0 0 0 0 0 0' <<'ANSWER'
answer of: the judge
number 6: the order does not name every row once and then only zeros, or has a row above the one that it follows
correct: no
tightest row: 0
slack: 0 slots
ANSWER
# Figures that no call answers: they are told as they are.
lines 'The planner answers number 4000000000 (a number without a meaning): 1 trial, 1 row in the order (highest first: 255), 1 row left (64).' >absurd.sentence
read_back_as absurd.sentence '0 1 4000000000 1 0 0 0 1 1 255 64' <<'ANSWER'
answer of: the planner
number 4000000000: this number is never returned
trials made: 1 trial
order: 1 row, highest first: 255
rows left: 1 row: 64
ANSWER
lines 'The judge says 7, neither yes nor no (number 0, an order was judged): tightest row 4294967295, slack -1 slot.' >absurd.sentence
read_back_as absurd.sentence '0 2 0 0 7 4294967295 -1 0 0' <<'ANSWER'
answer of: the judge
number 0: success
correct: 7, neither yes (1) nor no (0)
tightest row: 4294967295
slack: -1 slot
ANSWER
case_in=p1.sentence
case_is 0 'trials made: 6 trials' '' read-sentence -
case_in=/dev/null
# What is no sentence: 2, where that can be seen, and what would be right; zeros for a script.
not_read() { # WHERE ('' where nothing is said of it): standard input is the file
    cat >given.sentence
    case_is 2 '' "number 2: a field or a line end of the sheet is malformed, or the bytes are no answer's sentence" read-sentence given.sentence
    also_err 'right: the first line of plan, as: The planner answers number 0 (an order was made): 3 trials, 2 rows in the order (highest first: 2, 1), 0 rows left.'
    also_err 'right: the first line of judge, as: The judge says no (number 0, the order is not correct): tightest row 2, slack -10 slots.'
    grep -q '^remedy: ' err || complain "read-sentence given.sentence: no remedy"
    [ "$(sed -n 's/^where: //p' err)" = "$1" ] || complain "read-sentence given.sentence: not '$1'"
    case_is 2 '2 0 0 0 0 0 0 0 0' '*' read-sentence --plain given.sentence
    # What is right is right.
    sed -n 's/^right: .*, as: //p' err | while read -r right; do
        "$command" read-sentence - <<<"$right" >/dev/null 2>&1 || complain "read-sentence given.sentence: '$right' is no sentence"
    done
}
printf '' | not_read 'there are no bytes, or a line end alone'
printf '\r\n' | not_read 'there are no bytes, or a line end alone'
sed 's/ / &/' p1.sentence | not_read ''
sed 's/6 trials/06 trials/' p1.sentence | not_read ''
sed 's/-10 slots/-1 slots/' no.sentence | not_read ''
sed 's/4 rows/5 rows/' p1.sentence | not_read ''
cat p1.sentence no.sentence | not_read 'byte 122: a line end (byte 10), and more after it'
{ cat p1.sentence && echo; } | not_read 'byte 122: a line end (byte 10), and more after it'
sed 's/\.$//' p1.sentence | not_read "byte 120: 't' (byte 116) where the full stop belongs, at the end"
sed 's/$/ /' p1.sentence | not_read 'byte 122: a space (byte 32) where the full stop belongs, at the end'
printf '%740s' . | not_read 'byte 740: no sentence has so many bytes'
printf '%739s' . | not_read ''
printf '%5000s' . | not_read 'byte 740: no sentence has so many bytes'
cat p1.sheet | not_read 'byte 33: a line end (byte 10), and more after it'
case_is 3 '' "jasminebrace: the name of the sentence's file is empty" read-sentence ''
case_is 3 '' 'jasminebrace: nowhere.sentence cannot be opened: No such file or directory' read-sentence nowhere.sentence
case_is 3 '' 'jasminebrace: read-sentence takes 1 argument; 2 given' read-sentence p1.sentence p3.sentence
case_is 3 '' 'jasminebrace: read-sentence takes 1 argument; 0 given' read-sentence

# ---- standard input ----
case_in=p1.sheet
case_is 0 'place 1: row 1 (HI), slack 0 slots' '' plan -
case_is 0 "$p1_correct" '' judge - 1 2 3 4
case_in=/dev/null
refusal_is 2 1 'length: the sheet has 0 bytes; a first line alone takes 33' plan -
case_in=/dev/zero
refusal_is 2 2 'where: first line, row count n, byte 1 (line 1, byte 1 of it): byte 0 where a space or a digit belongs' plan -
case_in=/dev/null
cases=$((cases + 2))
ended_with() { [ "$status" -eq "$1" ] && holds out "$2" && holds err "$3"; }
status=0
"$command" plan - <&- >out 2>err || status=$?
ended_with 3 '' 'jasminebrace: standard input is closed' || complain "closed standard input: status $status"
status=0
"$command" plan - <. >out 2>err || status=$?
ended_with 3 '' 'jasminebrace: standard input cannot be read: Is a directory' || complain "a directory as standard input: status $status"

# ---- what cannot be used: status 3, the reason on standard error, nothing on standard output ----
export LC_ALL=C
case_is 3 '' 'jasminebrace: a command is missing'
also_err 'usage: jasminebrace COMMAND [--plain] ARGUMENTS'
case_is 3 '' "jasminebrace: unknown command: ''" ''
case_is 3 '' "jasminebrace: unknown command: 'plans'" plans p1.sheet
case_is 3 '' "jasminebrace: unknown option: '--plian'" plan --plian p1.sheet
case_is 3 '' "jasminebrace: not a supply from 0 to 4294967295, nor a count from 1 and a supply as 1000x5: '-x'" run p1.sheet -x
for name in plan explain rows; do
    case_is 3 '' "jasminebrace: $name takes 1 argument; 0 given" "$name"
    also_err "usage: jasminebrace $name SHEET"
    case_is 3 '' "jasminebrace: $name takes 1 argument; 2 given" "$name" p1.sheet p2.sheet
done
case_is 3 '' 'jasminebrace: speeds takes 1 argument; 2 given' speeds p1.sheet 1,2,3,4
also_err 'usage: jasminebrace speeds {SHEET | --slacks SHEET [ROW..]}'
case_is 3 '' 'jasminebrace: speeds takes 1 argument; 0 given' speeds
case_is 3 '' 'jasminebrace: speeds takes at least 1 argument; 0 given' speeds --slacks
case_is 3 '' 'jasminebrace: --slacks belongs to speeds' plan --slacks p1.sheet
case_is 3 '' 'jasminebrace: the name of the rows file is empty' sheet ''
case_is 3 '' 'jasminebrace: . cannot be read: Is a directory' sheet .
case_is 3 '' 'jasminebrace: nowhere.csv cannot be opened: No such file or directory' sheet nowhere.csv
for name in plan left explain finishes report count speeds rows; do
    case_is 3 '' 'jasminebrace: the name of the sheet is empty' "$name" ''
    case_is 3 '' 'jasminebrace: . cannot be read: Is a directory' "$name" .
    case_is 3 '' 'jasminebrace: nowhere.sheet cannot be opened: No such file or directory' "$name" nowhere.sheet
    case_is 3 '' 'jasminebrace: p1.sheet/x cannot be opened: Not a directory' "$name" p1.sheet/x
done
case_is 3 '' 'jasminebrace: judge takes at least 2 arguments; 1 given' judge p1.sheet
case_is 3 '' 'jasminebrace: run takes at least 2 arguments; 1 given' run p1.sheet
case_is 3 '' 'jasminebrace: sheet takes at least 1 argument; 0 given' sheet
also_err 'usage: jasminebrace sheet {ROWS.csv | N G K RELEASE,WORK,DEADLINE,LEVEL[,PROMISED[,FOLLOWS]]..}'
case_is 3 '' 'jasminebrace: finishes takes at least 1 argument; 0 given' finishes
case_is 3 '' 'jasminebrace: report takes at least 1 argument; 0 given' report
also_err 'usage: jasminebrace report SHEET [ROW..]'
case_is 3 '' 'jasminebrace: count takes 1 argument; 0 given' count
also_err 'usage: jasminebrace count SHEET'
case_is 3 '' 'jasminebrace: count takes 1 argument; 5 given' count p1.sheet 1 2 3 4
case_is 3 '' 'jasminebrace: --order belongs to run' count p1.sheet --order 1,2,3,4
case_is 3 '' 'jasminebrace: --ceiling belongs to plan' count p1.sheet --ceiling 5
case_is 3 '' 'jasminebrace: --stretches belongs to run and day' count p1.sheet --stretches
case_is 3 '' 'jasminebrace: --slacks belongs to speeds' count p1.sheet --slacks
case_is 3 '' 'jasminebrace: left takes 1 argument; 0 given' left
also_err 'usage: jasminebrace left SHEET'
case_is 3 '' 'jasminebrace: left takes 1 argument; 3 given' left p3.sheet 1 2
case_is 3 '' 'jasminebrace: --order belongs to run' left p3.sheet --order 1,2
case_is 3 '' 'jasminebrace: --ceiling belongs to plan' left p3.sheet --ceiling 5
case_is 3 '' 'jasminebrace: --stretches belongs to run and day' left p3.sheet --stretches
case_is 3 '' 'jasminebrace: --slacks belongs to speeds' left p3.sheet --slacks
case_is 3 '' "jasminebrace: unknown option: '--rows'" left p3.sheet --rows
case_is 3 '' 'jasminebrace: --stretches belongs to run and day' plan p1.sheet --stretches
case_is 3 '' 'jasminebrace: --order belongs to run' judge p1.sheet --order 1,2,3,4 1
case_is 3 '' 'jasminebrace: --order belongs to run' report p1.sheet --order 1,2,3,4
case_is 3 '' 'jasminebrace: --order belongs to run' speeds p1.sheet --slacks --order 1,2,3,4
case_is 3 '' 'jasminebrace: --order belongs to run' day p1.sheet --order 1,2,3,4 5
case_is 3 '' 'jasminebrace: --slacks belongs to speeds' day p1.sheet --slacks 5
case_is 3 '' 'jasminebrace: day takes at least 2 arguments; 1 given' day p1.sheet
also_err 'usage: jasminebrace day [--stretches] SHEET SUPPLY.. [then SHEET SUPPLY..]..'
# Of a day everything is looked at before the first slot.
case_is 3 '' 'jasminebrace: sheet 2 has no file' day p1.sheet 11x5 then
case_is 3 '' 'jasminebrace: sheet 2, second.sheet has no supplies' day p1.sheet 11x5 then second.sheet
case_is 3 '' 'jasminebrace: sheet 2, second.sheet has no supplies' day p1.sheet 11x5 then second.sheet then third.sheet 5
case_is 3 '' 'jasminebrace: sheet 1, p1.sheet has no supplies' day p1.sheet then second.sheet 5
case_is 3 '' 'jasminebrace: nowhere.sheet cannot be opened: No such file or directory' day p1.sheet 11x5 then nowhere.sheet 5
case_is 3 '' 'jasminebrace: the name of the sheet is empty' day p1.sheet 11x5 then '' 5
case_is 3 '' "jasminebrace: not a supply from 0 to 4294967295, nor a count from 1 and a supply as 1000x5: 'x5'" day p1.sheet 11x5 then second.sheet 5 x5
case_is 3 '' "jasminebrace: not a supply from 0 to 4294967295, nor a count from 1 and a supply as 1000x5: 'second.sheet'" day p1.sheet 11x5 second.sheet 5
case_in=p1.sheet
case_is 3 '' 'jasminebrace: sheet 2: standard input is given for an earlier sheet already' day - 11x5 then - 5
case_in=/dev/null
case_is 3 '' 'jasminebrace: --order needs row numbers with commas between' run p1.sheet 5 --order
for bad in x -1 1.5 '' '1,' ',1' '1,,2' ' 1' '1 2' 0x1 99999999999999999999; do
    case_is 3 '' "jasminebrace: not a row number: '$bad'" judge p1.sheet 1 2 "$bad"
    case_is 3 '' "jasminebrace: not a row number: '$bad'" finishes p1.sheet "$bad"
    case_is 3 '' "jasminebrace: not a row number: '$bad'" report --plain p1.sheet 1 "$bad"
    case_is 3 '' "jasminebrace: not a row number: '$bad'" speeds --slacks p1.sheet "$bad"
    case_is 3 '' "jasminebrace: not a row number: '$bad'" run p1.sheet 5 --order "$bad"
done
for name in judge report; do
    case_is 3 '' 'jasminebrace: an order has at most 64 places; more row numbers were given' "$name" p1.sheet "${rows[@]//*/1}"
done
for bad in x -1 1.5 '' 5x x5 0x5 1000X5 2x2x2 4294967296 1x4294967296 99999999999999999999x1 ' 5'; do
    case_is 3 '' "jasminebrace: not a supply from 0 to 4294967295, nor a count from 1 and a supply as 1000x5: '$bad'" run p1.sheet 5 "$bad"
done
refusal_is 2 19 'number 19: planning the table takes more trials than the ceiling' plan --ceiling 5 p1.sheet
also_out 'The planner answers number 19 (refused: planning takes more trials than the ceiling): 5 trials, 0 rows in the order, 0 rows left.'
case_is 3 '' 'jasminebrace: --ceiling belongs to plan' judge p1.sheet --ceiling 5 1
ln -s loop.sheet loop.sheet
case_is 3 '' 'jasminebrace: loop.sheet cannot be opened: Too many levels of symbolic links' plan loop.sheet
case_is 3 '' 'jasminebrace: /proc/self/mem cannot be read: Input/output error' plan /proc/self/mem
if [ "$(id -u)" -ne 0 ]; then
    cp p1.sheet shut.sheet && chmod 000 shut.sheet
    case_is 3 '' 'jasminebrace: shut.sheet cannot be opened: Permission denied' plan shut.sheet
fi
for words in 'plan p1.sheet' 'plan --plain p1.sheet' 'judge p1.sheet 1 2 3 4' 'finishes p1.sheet' 'report p1.sheet' \
    'report --plain rows64.sheet' 'speeds p1.sheet' 'speeds --slacks --plain p1.sheet' 'run p1.sheet 5' 'run p1.sheet 2000000x5' 'day p1.sheet 11x5 then second.sheet 9x5' 'day p1.sheet 5 then second.sheet 5' 'explain p1.sheet' 'explain p3.sheet' \
    'sheet 5 2 0 0,20,10,1' 'sheet p1.csv' 'rows p1.sheet' 'plan p3.sheet' 'judge p1.sheet 1 1' 'read-sentence p1.sentence' 'read-sentence --plain p1.sheet' 'count p1.sheet' 'count --plain p3.sheet' 'left p1.sheet' 'left p3.sheet' 'left --plain p3.sheet' '--help' '--version'; do
    cases=$((cases + 1))
    for full in /dev/full closed; do
        status=0
        # shellcheck disable=SC2086 # several words
        if [ "$full" = closed ]; then "$command" $words >&- 2>err || status=$?; else "$command" $words >"$full" 2>err || status=$?; fi
        : >out
        if [ "$status" -ne 3 ] || ! grep -q '^jasminebrace: standard output cannot be written' err; then
            complain "$words >$full: status $status"
        fi
    done
done

# ---- help and version ----
case_is 0 'usage: jasminebrace COMMAND [--plain] ARGUMENTS' '' --help
case_is 0 "jasminebrace, interface $(sed -n 's/^#define JB_VERSION \([0-9]*\)u$/\1/p' "$root/c/jasminebrace.h")" '' --version
for name in plan left judge finishes report count speeds run day explain sheet rows read-sentence; do
    case_is 0 '*' '' "$name" --help
    grep -q "^usage: jasminebrace $name " out || complain "$name --help: no usage"
    grep -q -- '--plain' out || complain "$name --help: nothing on --plain"
    cp out help
    for words in "--help $name" "$name -h" "-h $name" "$name nowhere.sheet --help"; do
        # shellcheck disable=SC2086 # several words
        case_is 0 '*' '' $words
        cmp -s out help || complain "$words and $name --help differ"
    done
done
# The table of refusals in the README says what the header says.
"$command" explain --help | sed -n 's/^number \([0-9]*\): /\1|/p; s/^remedy: //p' | paste -d '|' - - >numbers
sed -n 's/^| \([1-9][0-9]*\) | \(.*\) | \(.*\) |$/\1|\2|\3/p' "$root/README.md" >readme.numbers
cases=$((cases + 1))
[ "$(wc -l <numbers)" -eq "$(sed -n 's/^    JB_LAST_NUMBER = \([0-9]*\) .*/\1/p' "$root/c/jasminebrace.h")" ] || complain "explain --help has not every number"
cmp -s numbers readme.numbers || { diff numbers readme.numbers >out || true; complain "README's table of refusals is not the header's"; }

echo "command: $cases cases, $wrong not as they should be"
[ "$wrong" -eq 0 ]
