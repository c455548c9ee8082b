#!/usr/bin/env bash
# Builds the static library and tests it from outside, as C and as Rust see it, and what stands on it: the command, the firmware page and
# the pictures. Needs gcc, g++, binutils, cargo and python3.
set -euo pipefail
cd "$(dirname "$0")/.."

# The archive is made as the command makes it, so that it is proved and compiled once for both.
tools/jasminebrace --version
archive=target/staticlib/libjasminebrace.a
built=$(mktemp -d)
trap 'rm -rf "$built"' EXIT

# The planning program, for the tests of what it writes. (That it and plan_cases write what is stored is the gate's, by `rt ci`.)
(cd crates/plan && rt run <stdin >"$built/stdout" 2>"$built/plan.log") || { tail -n 30 "$built/plan.log"; exit 1; }
cmp "$built/stdout" crates/plan/stdout
mkdir -p target/bin
cp crates/plan/out/plan target/bin/plan

# The header is C11 and C++11, by itself and in a program that is linked and run.
warned=(-Wall -Wextra -Werror -pedantic)
watched=(-g -O1 '-fsanitize=address,undefined' -fno-sanitize-recover=all)
gcc -std=c11 "${warned[@]}" -fsyntax-only -x c c/jasminebrace.h
g++ -std=c++11 "${warned[@]}" -fsyntax-only -x c++ c/jasminebrace.h
gcc -std=c11 "${warned[@]}" "${watched[@]}" -o "$built/header" c/header.c "$archive"
"$built/header"
g++ -std=c++11 "${warned[@]}" -O2 -o "$built/header" -x c++ c/header.c -x none "$archive"
"$built/header"

# Freestanding: without a C library, with nothing but what the header says that the archive needs.
gcc -std=c11 "${warned[@]}" -O2 -ffreestanding -nostdlib -static -fno-tree-loop-distribute-patterns \
    -o "$built/freestanding" c/freestanding.c "$archive"
"$built/freestanding"
needed=$(nm -u "$archive" | awk '$1 == "U" { print $2 }' | sort -u | paste -sd ' ')
stated=$(sed -n 's/^ \*     \(mem[a-z ]*\)$/\1/p' c/jasminebrace.h)
[ "$needed" = "$stated" ] || { echo "the archive needs '$needed', the header says '$stated'"; exit 1; }
writable=$(size -A "$archive" | awk '$1 ~ /^\.(data|bss|tdata|tbss)/ { bytes += $2 } END { print bytes + 0 }')
[ "$writable" -eq 0 ] || { echo "the archive has $writable bytes of writable globals"; exit 1; }
for said in 'Machine: .*X86-64' 'OS/ABI: .*System V'; do
    readelf -h "$archive" | grep -q "$said" || { echo "the archive is not of $said, as the header says"; exit 1; }
done
exported=$(nm "$archive" | awk '$2 == "T" { print $3 }' | sort | paste -sd ' ')
declared=$(sed -n 's/^uint[0-9]*_t \(jb_[a-z_]*\)(.*/\1/p' c/jasminebrace.h | sort | paste -sd ' ')
[ "$exported" = "$declared" ] || { echo "the archive exports '$exported', the header declares '$declared'"; exit 1; }
echo "header: as C, as C++ and freestanding; the archive needs $needed"

# What is called every slot divides nothing.
python3 tools/divisions.py "$archive"

# The example against the model's run on paper: same text, same exit status.
# Supplies are in work units per slot; none means that every slot supplies N.
gcc -std=c11 "${warned[@]}" -O2 -o "$built/example" c/example.c "$archive"
cargo build --offline --release --manifest-path model/Cargo.toml --target-dir model/target --bin paper
same_text() {
    local sheet=$1 ours=0 paper=0
    shift
    "$built/example" "$sheet" "$@" >"$built/ours" || ours=$?
    model/target/release/paper "$sheet" "$@" >"$built/paper" || paper=$?
    cmp "$built/ours" "$built/paper"
    [ "$ours" -eq "$paper" ] || { echo "example $sheet $*: status $ours, on paper $paper"; return 1; }
    [ "$ours" -le 1 ] || { echo "example $sheet $*: not usable"; return 1; }
}
printf '' >"$built/empty.sheet"
printf '       1       5       2       0\n       0      20      10       x       0       0\n' >"$built/malformed.sheet"
printf '       1       2       3       0\n       0      20      10       1       0       0\n' >"$built/speeds.sheet"
printf '       1       5       2      17\n       4      20       4       1       9       9\n' >"$built/loading-above.sheet"
printf '       1       5       2      16\n       4      20       4       1       9       9\n' >"$built/row.sheet"
printf '       1       5       2      16\n       0      20      26       1       9       9\n' >"$built/promised-high.sheet"
printf '       1       5       2      16\n       0      20      26       0      21       0\n' >"$built/promised-above.sheet"
printf '       1       5       2      16\n       0      20      26       0      20       0\n' >"$built/promised-most.sheet"
printf '       1       5       2      16\n       0      20      26       1       0       1\n' >"$built/follows-itself.sheet"
printf '       2       5       2       0\n       1      20      26       1       0       0\n       0      20      26       1       0       1\n' >"$built/follows-later.sheet"
printf '       2       5       2       0\n       0      20      26       0       0       0\n       0      20      26       1       0       1\n' >"$built/follows-low.sheet"
printf '       2       5       2       0\n       0      20      26       0       0       0\n       0      20      26       0       0       1\n' >"$built/follows-dropped.sheet"
printf '       2       1       1       0\n       0       1       9       0       0       0\n       0       1       1       0       0       1\n' >"$built/follows-urgent.sheet"
printf '       1       5       2      16\n       0      20      26       1       0       0\n' >"$built/loading-most.sheet"
printf '       1       5       2\n       0      20      26       1       0       0\n' >"$built/before-loading.sheet"
printf '       1       5       2       0\n       0      20      26       1\n' >"$built/before-promised.sheet"
printf '       1       5       2       0\n       0      20      26       1       0\n' >"$built/before-follows.sheet"
printf '      65       5       2       0\n' >"$built/count.sheet"
cat samples/rows64.sheet samples/p1.sheet >"$built/long.sheet"
for sheet in samples/*.sheet "$built"/*.sheet; do
    same_text "$sheet"
    same_text "$sheet" 2
    same_text "$sheet" 5 5 2 2 0 12
    same_text "$sheet" 0 0 4294967295 1 3
    same_text "$sheet" 12 20 19 13
done
same_text samples/late-preview.sheet 4 4 4 4 1 # row 3 is dropped at its deadline while row 1 runs
grep -qx 'clock 7: row 3 dropped at its deadline' "$built/ours" || { echo "no row is dropped while another one runs"; exit 1; }
same_text samples/promise.sheet 2 # row 2 is dropped for its slots, and has its promised part
grep -qx 'row 2: dropped at clock 10, deadline 12 slots, not kept, promised 12 work units got' "$built/ours" || { echo "no promised part is told"; exit 1; }
same_text samples/lifting.sheet 4 4 3 3 4 # the lift is preempted, and the move begins when it is done
grep -qx 'slot 4: row 2, supply 4 work units, got 4 of 8 work units' "$built/ours" || { echo "a follower does not run when its row is done"; exit 1; }
same_text "$built/follows-dropped.sheet" 2 # row 1 is dropped at 4, and row 2 runs all the same
grep -qx 'slot 4: row 2, supply 2 work units, got 2 of 20 work units' "$built/ours" || { echo "a follower waits for a row that was dropped"; exit 1; }
same_text samples/p1.sheet 0 # runs to the last clock and ends with 8
# Sheets that follow without a stop: what is asked for, refused and committed is the text on standard input, and slots and closings of each sheet
# are those of its own run on paper from the clock of its commit on, moved as far as it was.
moved() { awk -v by="$2" 'NR == 1 { print; next } { printf "%8d%8d%8d%8d%8d%8d\n", $1 + by, $2, $3 + by, $4, $5, $6 }' "$1"; } # SHEET BY, in slots
worked_from() { awk -v from="$1" '/^slot/ { if ($2 + 0 >= from) print; next } /^row/ || /^clock .* dropped/'; }
day_text() { # STATUS SUPPLY [SHEET CLOCK BY]..: each sheet with the clock at which it is committed and by how many slots it is moved
    local status=$1 supply=$2 got=0 words=()
    shift 2
    cat >"$built/said"
    : >"$built/paper"
    while [ $# -gt 0 ]; do
        words+=(then "$1")
        moved "$1" "$3" >"$built/moved"
        { model/target/release/paper "$built/moved" "$supply" || true; } | worked_from "$2" >>"$built/paper"
        shift 3
    done
    "$built/example" "${words[1]}" "$supply" "${words[@]:2}" >"$built/ours" || got=$?
    [ "$got" -eq "$status" ] || { echo "example ${words[*]:1}: status $got"; return 1; }
    { grep '^clock' "$built/ours" | grep -v dropped; } | cmp - "$built/said"
    worked_from 0 <"$built/ours" | cmp - "$built/paper"
}
day_text 0 5 samples/p1.sheet 0 0 samples/second.sheet 11 0 samples/third.sheet 20 0 <<'DAY'
clock 1: asked for samples/second.sheet, the run is as it was
clock 1: commit, number 17: a row of the running sheet is open, row 1
clock 11: commit, number 0: success
clock 12: asked for samples/third.sheet, the run is as it was
clock 12: commit, number 17: a row of the running sheet is open, row 1
clock 20: commit, number 0: success
DAY
day_text 0 2 samples/p1.sheet 0 0 samples/second.sheet 16 2 samples/third.sheet 25 0 <<'DAY'
clock 1: asked for samples/second.sheet, the run is as it was
clock 1: commit, number 17: a row of the running sheet is open, row 1
clock 16: commit, number 18: a row of the new sheet has its release below the clock, row 1 by 2 slots
clock 16: the new sheet starts 2 slots later
clock 16: commit, number 0: success
clock 17: asked for samples/third.sheet, the run is as it was
clock 17: commit, number 17: a row of the running sheet is open, row 1
clock 25: commit, number 0: success
DAY
# A sheet that is refused when it is asked for: the running one goes on to its end, and nothing is committed.
day_text 1 5 samples/p1.sheet 0 0 samples/p3.sheet 0 0 <<'DAY'
clock 1: asked for samples/p3.sheet, the run is as it was
DAY
grep -qx 'number 7: no correct order exists, rows left: 1 2' "$built/ours" || { echo "a 7 is not told when a sheet is asked for"; exit 1; }
echo "example: same text and status as on paper, sheet after sheet"

# The command: its words, statuses and places, its memory watched; few calls for a million slots; always that of its sources.
gcc -std=c11 "${warned[@]}" "${watched[@]}" -o "$built/watched" c/command.c "$archive"
bash tools/command.sh "$built/watched" model/target/release/paper
gcc -std=c11 "${warned[@]}" -O2 -Wl,--wrap=jb_slot,--wrap=jb_forward -o "$built/counted" c/command.c c/counted.c "$archive"
bash tools/few_calls.sh "$built/counted"
bash tools/built.sh "$archive"
# Compiled for another interface than the archive's, it does nothing but say so.
mkdir "$built/other"
cp c/command.c c/table.h c/csv.h "$built/other"
sed 's/^#define JB_VERSION .*/#define JB_VERSION 99u/' c/jasminebrace.h >"$built/other/jasminebrace.h"
gcc -std=c11 "${warned[@]}" -O2 -o "$built/other/command" "$built/other/command.c" "$archive"
status=0
"$built/other/command" plan samples/p1.sheet >"$built/out" 2>"$built/err" || status=$?
if [ "$status" -ne 3 ] || [ -s "$built/out" ] || ! grep -q 'interface 5 and this program was compiled for 99$' "$built/err"; then
    echo "another interface is not noticed: status $status"
    exit 1
fi

# README's commands as they are written.
python3 tools/readme.py

# Arbitrary bytes, tables, orders and records, memory around every buffer watched.
gcc -std=c11 -Wall -Wextra -Werror "${watched[@]}" -o "$built/fuzz" c/fuzz.c "$archive"
"$built/fuzz"

# The library against the model, function by function, and the command's figures.
gcc -std=c11 "${warned[@]}" -O2 -o "$built/jasminebrace" c/command.c "$archive"
JASMINEBRACE_COMMAND=$built/jasminebrace cargo test --offline --release --manifest-path compiled/Cargo.toml

# The firmware page's listing and claims, and the pictures: those in docs drawn again, others looked at.
bash tools/firmware_test.sh
bash tools/picture_test.sh
