#!/usr/bin/env bash
# The picture: stored ones are drawn again, other sizes are looked at without a browser, and refusals are those of the command.
# Needs python3 and what tools/jasminebrace needs.
set -euo pipefail
cd "$(dirname "$0")/.."
made=$(mktemp -d)
trap 'rm -rf "$made"' EXIT

fail() { echo "picture: $*" >&2; exit 1; }
draw() { python3 tools/draw.py "$@"; }
command=tools/jasminebrace

# Stored pictures, drawn twice: the second time with other hashing.
stored=0
stored_as() { # picture, arguments of draw.py before the output
    local name=$1
    shift
    draw "$@" "$made/$name"
    cmp "$made/$name" "docs/$name" || fail "docs/$name is not what draw.py $* draws"
    PYTHONHASHSEED=7 draw "$@" "$made/again.svg"
    cmp "$made/again.svg" "docs/$name" || fail "draw.py $* draws $name otherwise the second time"
    stored=$((stored + 1))
}
stored_as worst-run.svg samples/p1.sheet --row 3
stored_as warming-run.svg samples/p1.sheet --supplies 6x5 4 3 12x2
stored_as wrong-order.svg samples/p1.sheet --row 1 --order 4,3,2,1
stored_as loading-run.svg samples/loading.sheet --row 1
stored_as least-speed.svg samples/warm.sheet --speeds
stored_as late-preview.svg samples/late-preview.sheet --supplies 4x4 2x3 8x2
stored_as promised-part.svg samples/promise.sheet --promise 2
stored_as lifting-first.svg samples/lifting.sheet --supplies 2x4 2x3 5x4

# The sheet with the last deadline there is for each LO row, so that late ones go on.
going_on() { awk 'NR == 1; NR > 1 { printf "%8d%8d%8d%8d%8d%8d\n", $1, $2, $4 == 0 ? 1000000 : $3, $4, $5, $6 }' "$1"; }

# Other sizes. The shapes of a picture do not grow with its slots.
looked=0
looks_right() { # most shapes and words, row asked about (0: none), order, supplies of the run, sheet, arguments of draw.py between sheet and output
    local most=$1 asked=$2 order=$3 supplies=$4 sheet=$5
    shift 5
    draw "$sheet" "$@" "$made/picture.svg"
    # A row without supplies asks for its worst run, in which late LO rows go on: they get the last deadline there is.
    cp "$sheet" "$made/worked.sheet"
    case " $* " in
        *' --supplies '*) ;;
        *' --row '* | *' --promise '*) going_on "$sheet" >"$made/worked.sheet" ;;
    esac
    # shellcheck disable=SC2086
    "$command" run --plain --stretches --order "$order" "$made/worked.sheet" $supplies >"$made/stretches"
    python3 tools/picture_test.py "$made/picture.svg" "$most" "$asked" "$sheet" "$made/stretches" || fail "draw.py $sheet $*"
    looked=$((looked + 1))
}
planned() { "$command" plan --plain "$1" | awk 'NR > 1 { printf "%s%s", comma, $2; comma = "," }'; }

"$command" sheet 5 2 0 0,10,5,1 >"$made/one.sheet"
looks_right 150 1 1 5x2 "$made/one.sheet" --row 1
looks_right 150 0 1 2x5 "$made/one.sheet"
"$command" sheet 1000 1 0 999999,1,1000000,1 >"$made/last.sheet"
looks_right 150 1 1 1000000x1 "$made/last.sheet" --row 1
"$command" sheet 7 7 0 0,7,1,0 >"$made/equal.sheet"
looks_right 150 1 1 1x7 "$made/equal.sheet" --row 1

"$command" sheet 40 25 0 0,300,40,1 5,200,60,0 10,90,25,1 30,400,90,1 0,80,70,0 60,333,100,1 80,100,2000,0 20,60,110,0 >"$made/eight.sheet"
eight=$(planned "$made/eight.sheet")
looks_right 400 6 "$eight" 200x25 "$made/eight.sheet" --row 6
looks_right 400 8 "$eight" 200x40 "$made/eight.sheet" --row 8
looks_right 400 2 "$eight" '3x40 41 7x0 4294967295 20x25' "$made/eight.sheet" --row 2 --supplies 3x40 41 7x0 4294967295 20x25
looks_right 400 0 8,7,6,5,4,3,2,1 '2000000x24' "$made/eight.sheet" --order 8,7,6,5,4,3,2,1 --supplies 2000000x24

rows64=$(planned samples/rows64.sheet)
looks_right 2200 30 "$rows64" 300x12 samples/rows64.sheet --row 30
looks_right 2200 64 "$rows64" 300x20 samples/rows64.sheet --row 64
looks_right 2200 0 "$rows64" '5x20 3x12' samples/rows64.sheet --supplies 5x20 3x12

"$command" sheet 10 7 0 0,1000000,300000,1 200000,500000,400000,1 400000,1000000,700000,1 500000,999999,900000,0 999000,700,1000000,1 0,50,1000,0 \
    >"$made/long.sheet"
long=$(planned "$made/long.sheet")
looks_right 300 5 "$long" 1000000x7 "$made/long.sheet" --row 5
changing=$(python3 -c 'print(*("400x10 350x7" for _ in range(1300)))')
# shellcheck disable=SC2086
looks_right 300 5 "$long" "$changing" "$made/long.sheet" --row 5 --supplies $changing

# Loading: a row preempted while it loads and when it has loaded, rows of all kinds of length, none that runs, 64 rows, a million slots.
looks_right 250 1 2,3,1 12x4 samples/loading.sheet --row 1
looks_right 250 3 2,3,1 14x2 samples/loading.sheet --row 3
looks_right 250 0 1,2,3 '0 3 4x4 9x1' samples/loading.sheet --order 1,2,3 --supplies 0 3 4x4 9x1
looks_right 250 0 2,3,1 1 samples/loading.sheet --supplies 1
"$command" sheet 5 2 3 4,10,20,1 >"$made/later.sheet"
looks_right 180 0 1 3x5 "$made/later.sheet" --supplies 3x5
looks_right 180 0 1 '3x5 5' "$made/later.sheet" --supplies 3x5 5
looks_right 180 0 1 '7x5' "$made/later.sheet" --supplies 7x5
looks_right 180 0 1 '8x5' "$made/later.sheet" --supplies 8x5
"$command" sheet 40 25 16 0,300,90,1 5,200,160,0 10,90,125,1 30,400,290,1 0,80,270,0 60,333,300,1 80,100,2000,0 20,60,310,0 >"$made/eight.sheet"
eight=$(planned "$made/eight.sheet")
looks_right 400 6 "$eight" 400x25 "$made/eight.sheet" --row 6
looks_right 400 0 8,7,6,5,4,3,2,1 2000000x24 "$made/eight.sheet" --order 8,7,6,5,4,3,2,1 --supplies 2000000x24
awk 'NR == 1 { printf "%8d%8d%8d%8d\n", $1, $2, $3, 1 } NR > 1 { printf "%8d%8d%8d%8d%8d%8d\n", $1, $2, $3 + 150, $4, $5, $6 }' samples/rows64.sheet \
    >"$made/rows64.sheet"
rows64=$(planned "$made/rows64.sheet")
looks_right 2300 30 "$rows64" 500x12 "$made/rows64.sheet" --row 30

# LO rows that are late: dropped at their deadlines in a run, a slot before or after their last one, all at once, in other sizes; going on in
# the worst run of another row, which may last until after every deadline, and done there late.
looks_right 320 3 1,2,3,4,5 '4x4 2x3 8x2' samples/late-preview.sheet --row 3 --supplies 4x4 2x3 8x2
looks_right 320 0 1,2,3,4,5 30x0 samples/late-preview.sheet --supplies 30x0
looks_right 320 4 1,2,3,4,5 40x2 samples/late-preview.sheet --row 4
looks_right 320 1 4,3,2,1 30x2 samples/p1.sheet --order 4,3,2,1 --row 1 --supplies 30x2
looks_right 320 1 4,3,2,1 40x2 samples/p1.sheet --order 4,3,2,1 --row 1
looks_right 320 0 3,1,2,4 40x5 samples/p1.sheet --order 3,1,2,4
looks_right 250 2 2,1 40x1 samples/p3.sheet --order 2,1 --row 2
looks_right 250 1 2,1 40x2 samples/p3.sheet --order 2,1 --row 1
looks_right 2400 0 "$(seq -s , 64 -1 1)" '20x20 300x8' samples/rows64.sheet --order "$(seq -s , 64 -1 1)" --supplies 20x20 300x8
"$command" sheet 1 1 0 0,1000000,1000000,1 0,5,10,0 >"$made/patient.sheet"
looks_right 150 1 1,2 1000000x1 "$made/patient.sheet" --order 1,2 --row 1
looks_right 150 2 1,2 1000000x1 "$made/patient.sheet" --order 1,2 --row 2
looks_right 150 0 1,2 1000000x1 "$made/patient.sheet" --order 1,2
"$command" sheet 1 1 0 0,1000000,1000000,1 0,5,10,0 0,5,1000000,1 >"$made/patient.sheet"
looks_right 200 3 1,2,3 1000000x1 "$made/patient.sheet" --order 1,2,3 --row 3

# Promised parts: got, not got, by the last slot of a stretch, of all the work, with loading, beside a drop at the deadline, in the worst runs of
# the row and of others, of 64 rows and in a million slots.
looks_right 320 2 1,2,4,3 14x2 samples/promise.sheet --promise 2
looks_right 320 2 1,2,4,3 12x4 samples/promise.sheet --row 2
looks_right 320 4 1,2,4,3 20x2 samples/promise.sheet --row 4
looks_right 320 0 1,2,4,3 '3x4 14x2' samples/promise.sheet --supplies 3x4 14x2
looks_right 320 0 1,2,4,3 20x1 samples/promise.sheet --supplies 20x1
looks_right 320 2 3,1,2,4 20x0 samples/promise.sheet --order 3,1,2,4 --row 2 --supplies 20x0
"$command" sheet 4 2 2 0,12,30,LO,12 1,4,17,HI,0 6,4,25,LO,1 >"$made/promise.sheet"
promise=$(planned "$made/promise.sheet")
looks_right 320 1 "$promise" 40x2 "$made/promise.sheet" --promise 1
looks_right 320 3 "$promise" 40x2 "$made/promise.sheet" --promise 3
looks_right 320 0 "$promise" '4x3 9x4' "$made/promise.sheet" --supplies 4x3 9x4
awk 'NR == 1; NR > 1 { printf "%8d%8d%8d%8d%8d%8d\n", $1, $2, $3 + 150, $4, $4 == 0 ? int($2 / 2) : 0, $6 }' samples/rows64.sheet >"$made/rows64.sheet"
rows64=$(planned "$made/rows64.sheet")
low=$(awk 'NR > 1 && $4 == 0 { print NR - 1; exit }' "$made/rows64.sheet")
looks_right 2600 "$low" "$rows64" 500x12 "$made/rows64.sheet" --promise "$low"
"$command" sheet 10 7 0 0,1000000,200000,LO,700000 5,70,1000000,HI >"$made/long-promise.sheet"
looks_right 200 1 2,1 200000x7 "$made/long-promise.sheet" --order 2,1 --promise 1
looks_right 200 0 1,2 '50000x10 40000x7' "$made/long-promise.sheet" --order 1,2 --supplies 50000x10 40000x7

# Rows that follow rows: a follower in the slot after its row has closed, later than that, beside a row that closes with its row, not at all; a
# row that is dropped for its slots, or by the clock; followers of one row, chains, with loading, in a worst run, of 64 rows and in a million slots.
looks_right 320 0 4,1,2,3 '2x4 2x3 5x4' samples/lifting.sheet --supplies 2x4 2x3 5x4
looks_right 320 2 4,1,2,3 20x2 samples/lifting.sheet --row 2
looks_right 320 3 4,1,2,3 20x4 samples/lifting.sheet --row 3
looks_right 320 0 4,1,2,3 5x2 samples/lifting.sheet --supplies 5x2
looks_right 320 0 4,1,2,3 6x2 samples/lifting.sheet --supplies 6x2
looks_right 320 0 4,1,2,3 20x0 samples/lifting.sheet --supplies 20x0
"$command" sheet 2 1 1 0,4,30,LO 0,2,30,LO,0,1 0,6,40,HI 2,3,30,LO,2,1 5,3,50,HI,0,3 9,1,60,LO,0,4 >"$made/waits.sheet"
waits=$(planned "$made/waits.sheet")
looks_right 400 0 "$waits" 60x1 "$made/waits.sheet" --supplies 60x1
looks_right 400 0 "$waits" '3x2 7x1 30x2' "$made/waits.sheet" --supplies 3x2 7x1 30x2
looks_right 400 6 "$waits" 60x2 "$made/waits.sheet" --row 6
looks_right 400 4 "$waits" 60x1 "$made/waits.sheet" --promise 4
"$command" sheet 1 1 0 0,2,2,LO 0,1,5,LO,0,1 0,2,2,HI >"$made/overdue.sheet"
looks_right 250 0 3,1,2 5x1 "$made/overdue.sheet" --order 3,1,2 --supplies 5x1
looks_right 250 2 3,1,2 9x1 "$made/overdue.sheet" --order 3,1,2 --row 2
"$command" sheet 10 7 0 0,700000,200000,HI 0,70,1000000,HI,0,1 900000,7,1000000,LO,0,2 >"$made/long-wait.sheet"
looks_right 200 3 1,2,3 1000000x10 "$made/long-wait.sheet" --row 3
awk 'NR == 1; NR > 1 { follows = (NR > 2 && (above == 1 || $4 == 0)) ? NR - 2 : 0; above = $4
    printf "%8d%8d%8d%8d%8d%8d\n", 0, $2, 1000000, $4, $5, follows }' samples/rows64.sheet >"$made/rows64.sheet"
rows64=$(planned "$made/rows64.sheet")
looks_right 2600 0 "$rows64" 300x20 "$made/rows64.sheet" --supplies 300x20

# How slow the processor may be, under the order at the least G or another one.
speeds_look_right() { # most shapes and words, sheet, order to give, if any
    local most=$1 sheet=$2
    draw "$sheet" --speeds ${3:+--order "$3"} "$made/picture.svg"
    "$command" speeds --slacks --plain "$sheet" ${3:+"$3"} >"$made/slacks"
    "$command" speeds --plain "$sheet" >"$made/speeds" 2>"$made/said" || true # no least G is an answer too
    python3 tools/picture_test.py "$made/picture.svg" "$most" --speeds "$sheet" "$made/slacks" "$made/speeds" || fail "draw.py $sheet --speeds ${3:-}"
    looked=$((looked + 1))
}
# N 1, and so one G, enough and not; the least G 1, N, and one between; a thousand G; an order that is correct at no G, and one at few; the
# largest figures; 64 rows.
speeds_look_right 60 "$made/equal.sheet"
"$command" sheet 1 1 0 0,5,9,1 >"$made/slow.sheet"
speeds_look_right 60 "$made/slow.sheet"
"$command" sheet 1 1 2 0,5,3,1 1,1,2,0 >"$made/never.sheet"
speeds_look_right 60 "$made/never.sheet" 1,2
speeds_look_right 150 "$made/one.sheet"
"$command" sheet 1000 500 0 0,100000,400,1 50,80000,500,0 100,120000,900,1 >"$made/thousand.sheet"
speeds_look_right 150 "$made/thousand.sheet"
speeds_look_right 150 samples/p3.sheet
speeds_look_right 150 samples/cooler.sheet
speeds_look_right 150 samples/cooler.sheet 1,2
grep -qF 'The order 2 1 is correct from G = 19 work units per slot on.' "$made/picture.svg" || fail "the order that does better is not named"
speeds_look_right 150 samples/promise.sheet
speeds_look_right 150 samples/promise.sheet 1,4,2,3
speeds_look_right 150 samples/lifting.sheet
speeds_look_right 150 samples/warm.sheet 5,6,1,3,4,2
speeds_look_right 150 samples/warm.sheet 5,3,6,1,4,2
speeds_look_right 200 samples/rows64.sheet
speeds_look_right 200 samples/rows64.sheet "$(seq -s , 64)"
largest=()
for ((row = 0; row < 64; row++)); do largest+=("999999,1000000,1000000,1"); done
"$command" sheet 1000 500 16 "${largest[@]}" >"$made/largest.sheet"
speeds_look_right 150 "$made/largest.sheet" "$(seq -s , 64)"

# Rows left of a sheet without a correct order: status 1, the words of plan, and the picture.
left_look_right() { # most shapes and words, sheet
    local most=$1 sheet=$2 got=0
    rm -f "$made/left.svg"
    draw "$sheet" "$made/left.svg" >"$made/out" 2>"$made/said" || got=$?
    "$command" left --plain "$sheet" >"$made/left" 2>"$made/words" || true # status 1
    [ "$got" -eq 1 ] || fail "draw.py $sheet: status $got, and the rows left are drawn"
    [ ! -s "$made/out" ] && cmp "$made/said" "$made/words" || fail "draw.py $sheet: not the words of the command"
    [ "$(said_by plan --plain "$sheet")" = "$(cat "$made/words")" ] || fail "left --plain $sheet: not the words of plan"
    python3 tools/picture_test.py "$made/left.svg" "$most" --left "$sheet" "$made/left" || fail "draw.py $sheet"
    looked=$((looked + 1))
}
said_by() { "$command" "$@" 2>&1 >"$made/out" || true; }
left_look_right 200 samples/p3.sheet
left_look_right 200 samples/stuck.sheet
cmp "$made/left.svg" docs/rows-left.svg || fail "docs/rows-left.svg is not what draw.py samples/stuck.sheet draws"
# One row, alone and not; followed by several, and short itself; promised parts that decide, and one that does not; with loading.
"$command" sheet 1 1 0 0,3,1,HI >"$made/stuck.sheet"
left_look_right 200 "$made/stuck.sheet"
"$command" sheet 5 1 0 0,1,300,HI 0,100,20,LO,90 0,1,400,LO >"$made/stuck.sheet"
left_look_right 200 "$made/stuck.sheet"
"$command" sheet 1 1 0 0,1,2,HI 0,1,1,LO,0,1 0,1,3,HI,0,1 0,1,3,HI,0,3 >"$made/stuck.sheet"
left_look_right 200 "$made/stuck.sheet"
"$command" sheet 4 2 1 0,12,9,LO,12 0,16,8,LO,2 0,8,9,HI 0,4,60,LO >"$made/levels.sheet"
left_look_right 200 "$made/levels.sheet"
"$command" sheet 4 4 0 0,12,2,LO,4 >"$made/stuck.sheet"
left_look_right 200 "$made/stuck.sheet"
# The axis begins near the earliest release; the largest figures; 64 rows, with waits, promised parts and long words too; 13 rows.
"$command" sheet 7 3 2 999990,20,999999,HI 999991,30,1000000,LO,9 >"$made/stuck.sheet"
left_look_right 200 "$made/stuck.sheet"
"$command" sheet 1 1 16 "${largest[@]}" >"$made/stuck.sheet"
left_look_right 2200 "$made/stuck.sheet"
late=()
for ((row = 0; row < 64; row++)); do late+=("$((row * 3)),$((row % 5 * 100000 + 3)),$((row * 3 + 90000)),LO,$((row % 3)),$row"); done
"$command" sheet 1 1 3 "${late[@]}" >"$made/stuck.sheet"
left_look_right 2600 "$made/stuck.sheet"
"$command" sheet 1 1 3 "${late[@]:0:13}" >"$made/stuck.sheet"
left_look_right 700 "$made/stuck.sheet"

# What is wrong with the bars of a picture is noticed: a loading bar as another, another as loading, a bar in other slots, one too few; and
# words that name other loading slots. Below, the same for a picture of speeds.
spoilt=0
spoilt_from=docs/loading-run.svg
spoilt_test=(250 1 samples/loading.sheet "$made/stretches") # what picture_test.py is told of it
spoilt_is_noticed() { # what is replaced in the stored picture, once, and by what
    python3 - "$spoilt_from" "$made/spoilt.svg" "$1" "$2" <<'PYTHON'
import re
import sys
source, target, old, new = sys.argv[1:]
with open(source, encoding="utf-8") as file:
    text, count = re.subn(old, new, file.read(), count=1)
with open(target, "w", encoding="utf-8") as file:
    file.write(text)
sys.exit(0 if count == 1 else f"the picture has no '{old}' to spoil")
PYTHON
    ! python3 tools/picture_test.py "$made/spoilt.svg" "${spoilt_test[@]}" 2>"$made/said" || fail "'$2' in place of '$1' is not noticed"
    grep -q "$3" "$made/said" || fail "'$2' in place of '$1' is noticed as $(cat "$made/said")"
    spoilt=$((spoilt + 1))
}
"$command" run --plain --stretches --order 2,3,1 samples/loading.sheet 11x4 >"$made/stretches"
python3 tools/picture_test.py docs/loading-run.svg "${spoilt_test[@]}" || fail "docs/loading-run.svg"
spoilt_is_noticed 'fill="url\(#low-loading\)"' 'fill="url(#low)"' '^.*: row 1 has a bar'
spoilt_is_noticed 'fill="url\(#low\)"' 'fill="url(#low-loading)"' '^.*: row 1 has a bar'
spoilt_is_noticed '<rect x="([0-9]+)([0-9.]*)"([^>]*high-loading)' '<rect x="9\1\2"\3' '^.*: row 2 has a bar'
spoilt_is_noticed 'width="[0-9.]*"( height="[0-9.]*" fill="url\(#high-loading)' 'width="40"\1' '^.*: row 2 has a bar'
spoilt_is_noticed '<rect [^>]*high-loading[^>]*/>' '' '^.*: row 2 has 1 bars and not 2'
spoilt_is_noticed '(<g><title>Place 1: .*)loads in slots 1 to 2' '\1loads in slots 1 to 3' '^.*: row 2 loads in'
spoilt_is_noticed '<text [^>]*>loading: [^<]*</text>' '' '^.*: with K 2 the legend'
# Its worst run closes row 1 at its worst finish.
spoilt_is_noticed '(<g><title>Place 3: .*worst finish) 11' '\1 12' '^.*: row 1 closes at 11 in its worst run'
# How rows closed: by the words, by the shape of the mark and its place, and by the legend.
spoilt_from=docs/late-preview.svg
spoilt_test=(320 0 samples/late-preview.sheet "$made/stretches")
"$command" run --plain --stretches --order 1,2,3,4,5 samples/late-preview.sheet 4x4 2x3 8x2 >"$made/stretches"
python3 tools/picture_test.py docs/late-preview.svg "${spoilt_test[@]}" || fail "docs/late-preview.svg"
spoilt_is_noticed '(<g><title>Place 3: .*)runs in slot 6' '\1runs in slots 6 to 7' '^.*: row 3 runs in slot 6, '
spoilt_is_noticed '>dropped at deadline<' '>dropped<' '^.*: row 3 is dropped at deadline at 7'
spoilt_is_noticed '>dropped<' '>dropped at deadline<' '^.*: row 5 is dropped at 14'
spoilt_is_noticed '<path [^>]*fill="#b00020"[^>]*/>\n<line [^>]*/>\n<line [^>]*/>' '' '^.*: row 3 is dropped at deadline at 7, and has the marks'
spoilt_is_noticed '(<path d="M)[0-9.]*,[0-9.]* ([^"]*" fill="#b00020")' '\g<1>9,9 \2' '^.*: row 3 is dropped at deadline at 7, and has the marks'
spoilt_is_noticed '(<line [^>]*stroke=")#b00020' '\1#1f2328' '^.*: row 5 is dropped at 14, and has the marks'
spoilt_is_noticed '<circle [^>]* r="4.4" [^>]*/>' '' '^.*: row 1 is done at 6, and has the marks'
spoilt_is_noticed '<text [^>]*>dropped at its deadline: [^<]*</text>' '' '^.*: the legend names rows dropped at their deadlines 0 times'
# Promised parts: an edge or a flag at another place, too few of them, words, and the legend.
spoilt_from=docs/promised-part.svg
spoilt_test=(320 2 samples/promise.sheet "$made/stretches")
going_on samples/promise.sheet >"$made/worked.sheet"
"$command" run --plain --stretches --order 1,2,4,3 "$made/worked.sheet" 14x2 >"$made/stretches"
python3 tools/picture_test.py docs/promised-part.svg "${spoilt_test[@]}" || fail "docs/promised-part.svg"
spoilt_is_noticed '<path d="[^"]*" fill="none" stroke="#5b21b6"[^>]*/>' '' '^.*: row 2 has the promised edges'
spoilt_is_noticed '<path d="M[0-9.]*(,[^"]*" fill="none" stroke="#5b21b6")' '<path d="M9\1' '^.*: row 2 has the promised edges'
spoilt_is_noticed '<path [^>]*fill="#5b21b6"[^>]*/>' '' '^.*: row 2 has its promised part at 10, and flags'
spoilt_is_noticed '<line [^>]*stroke="#5b21b6"[^>]*/>' '' '^.*: row 2 has its promised part at 10, and flags'
spoilt_is_noticed '<line x1="[0-9.]*"([^>]*stroke="#5b21b6")' '<line x1="9"\1' '^.*: row 2 has its promised part at 10, and flags'
spoilt_is_noticed '(<g><title>Place 2: .*promised part) 12' '\1 13' '^.*: of row 2 12 work units are promised'
spoilt_is_noticed '(<g><title>Place 2: .*)promised part [^;]*; ' '\1' '^.*: of row 2 12 work units are promised'
spoilt_is_noticed '(<g><title>Place 2: .*at exactly G after) 10' '\1 11' '^.*: row 2 does not get its promised part when it is due'
spoilt_is_noticed '<text [^>]*>the promised part is got</text>' '' '^.*: the legend names promised parts'
# Rows that follow rows: an arrow that begins or ends elsewhere, that is missing, or without its head; the column, the words and the legend.
spoilt_from=docs/lifting-first.svg
spoilt_test=(320 0 samples/lifting.sheet "$made/stretches")
"$command" run --plain --stretches --order 4,1,2,3 samples/lifting.sheet 2x4 2x3 5x4 >"$made/stretches"
python3 tools/picture_test.py docs/lifting-first.svg "${spoilt_test[@]}" || fail "docs/lifting-first.svg"
spoilt_is_noticed '<path d="M[0-9.]*(,[^"]*" fill="none" stroke="#0b6e69")' '<path d="M9\1' '^.*: row 2 follows row 1, and its arrow goes from'
spoilt_is_noticed '<path d="M([0-9.]*),[0-9.]*( [^"]*" fill="none" stroke="#0b6e69")' '<path d="M\1,9\2' '^.*: row 2 follows row 1, and its arrow goes from'
spoilt_is_noticed '<path d="[^"]*" fill="none" stroke="#0b6e69"[^>]*/>' '' '^.*: row 2 follows row 1, closed at 4, and has arrows from'
spoilt_is_noticed '<path [^>]*fill="#0b6e69"[^>]*/>' '' '^.*: row 2 follows row 1, closed at 4, and has arrows from'
spoilt_is_noticed '<path d="M[0-9.]*(,[^"]*" fill="#0b6e69")' '<path d="M9\1' '^.*: row 2 follows row 1, closed at 4, and has arrows from'
spoilt_is_noticed 'd="(M[0-9.,]* [0-9.,]*) [0-9.]*,([0-9.]*" fill="none" stroke="#0b6e69"[^>]*/>\s*<path d="M)[0-9.]*' 'd="\1 700,\g<2>700' '^.*: row 3 follows row 2, and its arrow goes from'
spoilt_is_noticed '(<g><title>Place 3: .*; follows row) 1' '\1 4' '^.*: row 2 follows row 1, closed after 4 slot, and its lane says'
spoilt_is_noticed '(<g><title>Place 4: .*; follows row 2, closed after) 6' '\1 7' '^.*: row 3 follows row 2, closed after 6 slot, and its lane says'
spoilt_is_noticed '(<g><title>Place 2: .*); runs in' '\1; follows row 4, closed after 2 slots; runs in' '^.*: row 1 follows row 0, open at the end, and its lane says'
spoilt_is_noticed '(<g><title>Place 3: [^/]*/title>\s*<text [^/]*/text>\s*<text [^/]*/text>\s*<text [^>]*>)1<' '\g<1>3<' '^.*: row 2 follows row 1, and its column says'
spoilt_is_noticed '<text [^>]*>from the closing of a row [^<]*</text>' '' '^.*: 1 columns of followed rows, and the legend names arrows 0 times'
spoilt_is_noticed '>follows<' '>waits<' '^.*: 0 columns of followed rows'
spoilt_from=docs/least-speed.svg
spoilt_test=(150 --speeds samples/warm.sheet "$made/slacks" "$made/speeds")
"$command" speeds --slacks --plain samples/warm.sheet >"$made/slacks"
"$command" speeds --plain samples/warm.sheet >"$made/speeds"
python3 tools/picture_test.py docs/least-speed.svg "${spoilt_test[@]}" || fail "docs/least-speed.svg"
spoilt_is_noticed 'G: 54 work units' 'G: 53 work units' '^.*: it names'
spoilt_is_noticed '<circle cx="4' '<circle cx="3' '^.*: no mark stands at G = 54'
spoilt_is_noticed '(<rect [^>]*) width="[0-9.]*"([^>]* id="not-enough")' '\1 width="392"\2' '^.*: the ground of what is not enough'
spoilt_is_noticed '(<path d="M[0-9.,]* [0-9.,]* [0-9.,]* [0-9.]*,)([0-9.]*)' '\g<1>3\2' '^.*: at G = '
spoilt_is_noticed 'they go down to −[0-9,]* slots' 'they go down to −2,739 slots' '^.*: it is not so'
spoilt_is_noticed 'Slacks below [^<]*are off the scale' 'Slacks are off the scale' '^.*: at G = 1 the line'
spoilt_is_noticed '(<g><title>[^<]*row 1, [^/]*/title>\s*<rect x=")' '\g<1>9' '^.*: row 1 is the tightest'
spoilt_is_noticed '(row 3, [^/]*/title>[^/]*/>[^/]*/>\s*<text [^>]*>)3<' '\g<1>5<' '^.*: row 3 is the tightest'
spoilt_is_noticed '(row 6, [^/]*/title>\s*<rect [^>]*fill=")[^"]*' '\1#a8481c' '^.*: row 6 is the tightest .* other level'
spoilt_is_noticed '>degraded speed G, work units per slot<' '>degraded speed G<' '^.*: an axis has no name or no unit'
spoilt_is_noticed '>−5<' '>−6<' '^.*: the ticks of the slacks'
spoilt_is_noticed '<line [^>]*stroke-dasharray="7 3"/>' '' '^.*: there is no line of slack 0'
# Rows left: each mark elsewhere or missing, other figures, other words, another row, and the legend.
"$command" left --plain samples/stuck.sheet >"$made/left" 2>"$made/said" || true # status 1
draw samples/stuck.sheet "$made/left.svg" 2>"$made/said" || true
spoilt_from=$made/left.svg
spoilt_test=(200 --left samples/stuck.sheet "$made/left")
python3 tools/picture_test.py "$spoilt_from" "${spoilt_test[@]}" || fail "the rows left of samples/stuck.sheet"
spoilt_is_noticed '<rect [^>]*fill="url\(#short\)"[^>]*/>' '' '^.*: row 3 is 3 slots short, marked at'
spoilt_is_noticed '<rect x="([0-9.]*)"([^>]*fill="url\(#short\)")' '<rect x="9\1"\2' '^.*: row 3 is 3 slots short, marked at'
spoilt_is_noticed 'width="[0-9.]*"( height="[0-9.]*" fill="url\(#short\)")' 'width="87"\1' '^.*: row 3 is 3 slots short, marked at'
spoilt_is_noticed 'fill="#eceff2"' 'fill="url(#short)"' '^.*: row 2 is 0 slots short, marked at'
spoilt_is_noticed '<rect x="([0-9.]*)"([^>]*fill="#eceff2")' '<rect x="9\1"\2' '^.*: row 2 has its window at'
spoilt_is_noticed '<line x1="[0-9.]*"([^>]*stroke="#1f2328" stroke-width="2.6")' '<line x1="9"\1' '^.*: row 2 has its release and its deadline at'
spoilt_is_noticed '<circle [^>]*/>' '' '^.*: row 2 has its worst finish at 10, done'
spoilt_is_noticed '<circle cx="' '<circle cx="9' '^.*: row 2 has its worst finish at 10, done'
spoilt_is_noticed '<path [^>]*fill="#b00020"[^>]*/>' '' '^.*: row 3 has its worst finish at 10, late'
spoilt_is_noticed '>3 slots short<' '>2 slots short<' '^.*: row 3 is 3 slots short, and its lane says'
spoilt_is_noticed '>2 slots to spare<' '>2 slots short<' '^.*: row 2 is 2 slots to spare, and its lane says'
spoilt_is_noticed '>1 slot short<' '>1 slots short<' '^.*: row 4 is 1 slot short, and its lane says'
spoilt_is_noticed '>−3<' '>3<' '^.*: row 3 has '
spoilt_is_noticed '>row 3 follows it<' '>row 4 follows it<' '^.*: row 2 is followed by row 3'
spoilt_is_noticed '<text [^>]*>row 3 follows it</text>' '' '^.*: row 2 is followed by row 3'
spoilt_is_noticed '<path [^>]*fill="#0b6e69"[^>]*/>' '' '^.*: row 2 is followed by row 3'
spoilt_is_noticed '(<g><title>Row 3, .*worst finish) 10' '\1 11' '^.*: row 3 is not told as'
spoilt_is_noticed '(<g><title>Row 2, .*row) 3 follows it' '\1 4 follows it' '^.*: row 2 is not told as'
spoilt_is_noticed '(<g><title>Row) 4' '\1 5' '^.*: rows \[2, 3, 5\] have lanes'
spoilt_is_noticed '; it is not said which, nor that one is enough' '' '^.*: it is not said what the rows left mean'
spoilt_is_noticed '<text [^>]*>As long as [^<]*</text>' '' '^.*: it is not said what the rows left mean'
spoilt_is_noticed '<text [^>]*>The other rows alone [^<]*</text>' '' '^.*: it is not said what the rows left mean'
spoilt_is_noticed '>Rows left: 3 of 5' '>Rows left: 3 of 4' '^.*: it is not said that 3 of 5 rows are left'
spoilt_is_noticed '(<title id="picture-title">)No order is correct' '\1The rows' '^.*: the title does not say'
spoilt_is_noticed '<text [^>]*>a row left follows it: [^<]*</text>' '' "^.*: the legend names 'a row left follows it"
spoilt_is_noticed '<text [^>]*>the slots that a row is short</text>' '' "^.*: the legend names 'the slots that a row is short"
spoilt_is_noticed '>clock, slots<' '>clock<' '^.*: the axis has no name or no unit'
"$command" left --plain "$made/levels.sheet" >"$made/left" 2>"$made/said" || true # status 1
draw "$made/levels.sheet" "$made/left.svg" 2>"$made/said" || true
spoilt_test=(200 --left "$made/levels.sheet" "$made/left")
python3 tools/picture_test.py "$spoilt_from" "${spoilt_test[@]}" || fail "the rows left with promised parts"
spoilt_is_noticed '<path [^>]*fill="#5b21b6"[^>]*/>' '' '^.*: row 1 has its promised part at 17'
spoilt_is_noticed '(<path d="M)[0-9.]*(,[^"]*" fill="#5b21b6")' '\g<1>9\2' '^.*: row 1 has its promised part at 17'
spoilt_is_noticed '(<g><title>Row 1, .*got after) 17' '\1 18' '^.*: row 1 is not told as'
spoilt_is_noticed '<text [^>]*>the promised part is got, [^<]*</text>' '' "^.*: the legend names 'the promised part is got"

# A picture of speeds asks the command once, or twice where an order is given, and never once for each G.
mkdir "$made/counting"
cp -r tools/draw.py tools/pictures "$made/counting"
printf '#!/usr/bin/env bash\necho asked >>"%s"\nexec "%s" "$@"\n' "$made/asked" "$(realpath "$command")" >"$made/counting/jasminebrace"
chmod +x "$made/counting/jasminebrace"
asks() { # how often, arguments of draw.py before the output
    local times=$1
    shift
    : >"$made/asked"
    python3 "$made/counting/draw.py" "$@" "$made/picture.svg"
    [ "$(wc -l <"$made/asked")" -eq "$times" ] || fail "draw.py $* asks $(wc -l <"$made/asked") times"
}
asks 1 "$made/thousand.sheet" --speeds
asks 2 "$made/thousand.sheet" --speeds --order 1,2,3
# That of rows left twice, however many there are: for a plan, and for the rows left.
: >"$made/asked"
python3 "$made/counting/draw.py" "$made/stuck.sheet" "$made/picture.svg" 2>"$made/said" || true # status 1
[ "$(wc -l <"$made/asked")" -eq 2 ] || fail "draw.py of rows left asks $(wc -l <"$made/asked") times"

# A sheet from standard input or a pipe is the same sheet.
draw - --row 3 "$made/input.svg" <samples/p1.sheet
draw <(cat samples/p1.sheet) --row 3 "$made/pipe.svg"
cmp "$made/input.svg" docs/worst-run.svg && cmp "$made/pipe.svg" docs/worst-run.svg || fail "a sheet from a pipe is drawn otherwise"
draw samples/stuck.sheet "$made/left.svg" 2>"$made/said" || true # status 1, here and below
draw - "$made/input.svg" <samples/stuck.sheet 2>"$made/said" || true
draw <(cat samples/stuck.sheet) "$made/pipe.svg" 2>"$made/said" || true
cmp "$made/input.svg" "$made/left.svg" && cmp "$made/pipe.svg" "$made/left.svg" || fail "rows left of a sheet from a pipe are drawn otherwise"

# Refusals: the command's words and status, and no picture.
refused=0
refuses() { # status, what is in the words, arguments of draw.py before the output
    local status=$1 words=$2 got=0
    shift 2
    rm -f "$made/none.svg"
    draw "$@" "$made/none.svg" >"$made/out" 2>"$made/said" || got=$?
    [ "$got" -eq "$status" ] || fail "draw.py $*: status $got, not $status"
    grep -qF -- "$words" "$made/said" || fail "draw.py $*: '$words' is not in: $(cat "$made/said")"
    [ ! -s "$made/out" ] || fail "draw.py $*: something on standard output"
    [ ! -e "$made/none.svg" ] || fail "draw.py $*: a picture all the same"
    refused=$((refused + 1))
}
printf '       1       2       3       0\n       0      20      10       1       0       0\n' >"$made/speeds.sheet"
printf '       1       2       1      17\n       0      20      10       1       0       0\n' >"$made/loading.sheet"
printf '       1       2       1       0\n       0      20      10       1       1       0\n' >"$made/promised.sheet"
printf '       1       2       1       0\n       0      20      10       1       0       1\n' >"$made/follows.sheet"
printf '       1       2       1       0\n       0      20      10       1       0\n' >"$made/before-follows.sheet"
printf '       1       2       1       0\n       0      20      10       1\n' >"$made/before-promised.sheet"
printf '       1       2       1\n       0      20      10       1\n' >"$made/before.sheet"
refuses 1 "$(said_by plan --plain samples/p3.sheet)" samples/p3.sheet --row 1
# A run of a sheet without a correct order needs an order; without options the rows left are drawn.
no_run='a run needs an order: give one by --order; without options the rows left are drawn'
refuses 1 "$no_run" samples/p3.sheet --row 1
refuses 1 "$no_run" samples/p3.sheet --supplies 5x2
refuses 1 "$no_run" "$made/levels.sheet" --promise 1
refuses 2 "$(said_by plan --plain "$made/speeds.sheet")" "$made/speeds.sheet" --row 1
refuses 2 "$(said_by plan --plain "$made/loading.sheet")" "$made/loading.sheet" --row 1
refuses 2 "$(said_by plan --plain "$made/before.sheet")" "$made/before.sheet" --row 1
refuses 2 "$(said_by plan --plain "$made/promised.sheet")" "$made/promised.sheet" --row 1
refuses 2 "$(said_by plan --plain "$made/before-promised.sheet")" "$made/before-promised.sheet" --row 1
refuses 2 "$(said_by plan --plain "$made/follows.sheet")" "$made/follows.sheet" --row 1
refuses 2 "$(said_by plan --plain "$made/before-follows.sheet")" "$made/before-follows.sheet" --row 1
refuses 2 "$(said_by finishes --plain samples/lifting.sheet 4,2,1,3)" samples/lifting.sheet --order 4,2,1,3
refuses 2 "$(said_by finishes --plain samples/p1.sheet 1,1,2,3)" samples/p1.sheet --order 1,1,2,3
refuses 2 "number 8" samples/p1.sheet --supplies 2000001x1
refuses 3 "$(said_by plan --plain "$made/missing.sheet")" "$made/missing.sheet"
refuses 3 "$(said_by run --plain samples/p1.sheet five)" samples/p1.sheet --supplies five
refuses 3 "$(said_by finishes --plain samples/p1.sheet 1,two,3,4)" samples/p1.sheet --order 1,two,3,4
refuses 1 "$(said_by speeds --slacks --plain "$made/never.sheet")" "$made/never.sheet" --speeds
refuses 2 "$(said_by speeds --slacks --plain "$made/loading.sheet")" "$made/loading.sheet" --speeds
refuses 2 "$(said_by speeds --slacks --plain samples/p1.sheet 1,1,2,3)" samples/p1.sheet --speeds --order 1,1,2,3
refuses 3 "$(said_by speeds --slacks --plain samples/p1.sheet 1,two,3,4)" samples/p1.sheet --order 1,two,3,4 --speeds
refuses 3 "do not go with it" samples/p1.sheet --speeds --row 1
refuses 3 "do not go with it" samples/p1.sheet --supplies 5 --speeds
refuses 3 "is given twice" samples/p1.sheet --speeds --speeds
refuses 3 "nothing follows --order" samples/p1.sheet --order --speeds
refuses 3 "do not go with it" samples/promise.sheet --speeds --promise 2
refuses 3 "do not go together" samples/promise.sheet --row 2 --promise 2
refuses 3 "nothing is promised of row 1" samples/promise.sheet --promise 1
refuses 3 "nothing is promised of row 3" samples/promise.sheet --promise 3
refuses 3 "no row 5" samples/promise.sheet --promise 5
refuses 3 "no row 5" samples/p1.sheet --row 5
refuses 3 "no row number" samples/p1.sheet --row third
refuses 3 "nothing follows --supplies" samples/p1.sheet --supplies
refuses 3 "no option" samples/p1.sheet --rows 3
refuses 3 "usage"
got=0
draw samples/p1.sheet --supplies 5 5 2>"$made/said" || got=$?
[ "$got" -eq 3 ] && grep -q 'does not end in .svg' "$made/said" || fail "a picture without a name: status $got"
got=0
draw samples/p1.sheet "$made/nowhere/picture.svg" 2>"$made/said" || got=$?
[ "$got" -eq 3 ] || fail "a picture that cannot be written: status $got"

# It has no run, order or finish but the command's: without the command nothing is drawn.
mkdir "$made/alone"
cp -r tools/draw.py tools/pictures "$made/alone"
got=0
python3 "$made/alone/draw.py" samples/p1.sheet --row 3 "$made/alone.svg" 2>"$made/said" || got=$?
[ "$got" -eq 3 ] && [ ! -e "$made/alone.svg" ] || fail "it draws without the command"

echo "picture: $stored as stored, $looked sizes looked at, $spoilt spoilt pictures noticed, $refused refusals passed on"
