#!/usr/bin/env bash
# docs/FIRMWARE.md against the archive: its listing is taken out of the page, compiled, and run on a board played by tools/firmware_test.c,
# which also calls what the page says of records. Then the listing is spoilt in ways that the test must notice. Last, the archive's code is
# looked through for what the page says of variables and the header of bare boards.
# Needs gcc, g++, objdump, python3 and the archive that tools/archive.sh writes.
set -euo pipefail
cd "$(dirname "$0")/.."
archive=target/staticlib/libjasminebrace.a
built=$(mktemp -d)
trap 'rm -rf "$built"' EXIT

fail() { echo "firmware page: $*" >&2; exit 1; }

[ -f "$archive" ] || fail "there is no $archive; tools/archive.sh writes it"

# The listing: the page's one C listing.
[ "$(grep -c '^```c$' docs/FIRMWARE.md)" -eq 1 ] || fail "the page has not exactly one C listing"
sed -n '/^```c$/,/^```$/p' docs/FIRMWARE.md | sed '1d;$d' >"$built/listing.c"

warnings='-Wall -Wextra -Werror -pedantic -Wmissing-prototypes'
stack=$(sed -n 's/^ \* count on \([0-9,]*\) bytes\.$/\1/p' c/jasminebrace.h | tr -d ,)
[ -n "$stack" ] || fail "the header does not state the stack of a look at an allowance"
gcc -std=c11 $warnings -O2 -Ic -DALLOWANCE_STACK="$stack" -c -o "$built/test.o" tools/firmware_test.c
gcc -std=c11 $warnings -O2 -Ic -c -o "$built/listing.o" "$built/listing.c"
gcc -o "$built/test" "$built/test.o" "$built/listing.o" "$archive"
"$built/test" || fail "the listing, or what the page says, fails"

# It needs no C library, and is C++ too.
gcc -std=c11 $warnings -O2 -Ic -ffreestanding -nostdinc -isystem "$(gcc -print-file-name=include)" -fsyntax-only "$built/listing.c"
g++ -std=c++11 -Wall -Wextra -Werror -pedantic -Ic -fsyntax-only -x c++ "$built/listing.c"

# Spoilt listings fail.
spoilt=0
spoil() { # what is replaced, by what
    grep -qF -- "$1" "$built/listing.c" || fail "the listing has no '$1' to spoil"
    python3 - "$built/listing.c" "$built/spoilt.c" "$1" "$2" <<'PYTHON'
import sys
source, target, old, new = sys.argv[1:]
text = open(source, encoding="utf-8").read()
open(target, "w", encoding="utf-8").write(text.replace(old, new))
PYTHON
    gcc -std=c11 -w -O2 -Ic -c -o "$built/spoilt.o" "$built/spoilt.c"
    gcc -o "$built/spoilt" "$built/test.o" "$built/spoilt.o" "$archive"
    if "$built/spoilt" >"$built/said" 2>&1; then
        fail "the test does not notice '$2' in place of '$1'"
    fi
    grep -q '^not so: ' "$built/said" || fail "'$2' in place of '$1' is not refused by a claim"
    spoilt=$((spoilt + 1))
}
spoil 'return run->table.work[row - 1];' 'return board_units(row) - before;'
spoil 'return units < before ? 0 : units - before;' 'return units + 0 * before;'
spoil 'return units < before ? 0 : units - before;' 'return units - before;'
spoil 'board_run_until_tick(row);
' 'board_run_until_tick(run->order[0]);
'
spoil 'if (jb_is_done(run, row) && !board_ended(row)) {' 'if (0) {'
spoil '&& !jb_is_late(run, row)' ''
spoil 'jb_has_promised(run, row));' 'jb_is_done(run, row));'
# Of several rows that a slot closes, only the first is told, or none that did not run; a row is told twice.
spoil '            tell_closing(run, row);
        }' '            tell_closing(run, row);
            return;
        }'
spoil '        tell_closings(run);' '        if (row != 0 && !jb_is_open(run, row)) { tell_closing(run, row); }'
spoil 'if (run->closing[row - 1] == run->clock) {' 'if (run->closing[row - 1] != 0) {'
spoil 'jb_first_open(run) != 0' 'jb_is_open(run, 1)'
spoil '    if (number != JB_OK) {
        return number;
    }
    const' '    const'
# Started never, before the record is fresh, or for a table that is refused.
spoil '    board_start();
' ''
spoil '        number = jb_fresh_run(table, order, run);
    }
    if (number != JB_OK) {
        return number; /* nothing was begun */
    }
    board_start();' '        board_start();
        number = jb_fresh_run(table, order, run);
    }'
spoil '    if (number != JB_OK) {
        return number; /* nothing was begun */
    }
    board_start();' '    board_start();'
# A new sheet as a new run, worked though it is refused, or with the jobs of the sheet before.
spoil 'jb_commit_sheet(run, next, order)' 'jb_fresh_run(next, order, run)'
spoil '    if (number != JB_OK) {
        return number; /* the sheet before stays */
    }
' ''
spoil '    board_new_sheet();
' ''
# 0 for a damaged record, 8 where every row is closed.
spoil 'if (number == JB_OK && jb_coming_row(run, &row) == JB_UNSOUND) {' 'if (0) {'
spoil 'if (number == JB_OK && jb_coming_row(run, &row) == JB_UNSOUND) {
        number = JB_UNSOUND;
    }' 'if (number == JB_OK) {
        number = jb_coming_row(run, &row);
    }'
# Planning beside other work: the ceiling not raised, 19 taken for an answer, no other work, the last ceiling at once.
spoil '        ceiling *= 2;
' ''
spoil 'while (number == JB_OVER_CEILING) {' 'while (0) {'
spoil '        board_other_work();
' ''
spoil '        ceiling *= 2;' '        ceiling = JB_MOST_TRIALS;'

# The archive has no variables of its own, and is x86-64 Linux code.
objdump -h "$archive" | awk '$2 ~ /^\.(data|bss|tdata|tbss)/ && $3 !~ /^0+$/ { print $2, $3; found = 1 } END { exit found }' >"$built/variables" ||
    fail "the archive has variables: $(tr '\n' ' ' <"$built/variables")"
objdump -f "$archive" | grep -q 'file format elf64-x86-64' || fail "the archive is not x86-64 code"

# What the header says under "Bare boards": xmm registers and nothing beyond SSE2 but tzcnt, which is bsf to older processors; and nothing kept
# below the stack pointer but by the calls that plan or count.
code() { objdump -d --no-show-raw-insn "$1" | sed -nE 's/^ *[0-9a-f]+:[[:space:]]+//p'; }
code "$archive" >"$built/code"
[ "$(wc -l <"$built/code")" -gt 1000 ] || fail "the archive's code is not found"
grep -q '%xmm' "$built/code" || fail "the header says that xmm registers are used, and none is"
if grep -E '%(ymm|zmm|mm|st|k)[0-9(]|%st\b' "$built/code" >"$built/found"; then
    fail "the archive uses other registers than the header says: $(head -n 1 "$built/found")"
fi
later='lddqu|addsub|hadd|hsub|mov(d|sh|sl)dup|pshufb|palignr|pabs|psign|ph(add|sub)|pmaddubsw|pmulhrsw|p?blend|pinsr[bdq]|pextr[bdq]|pextrw .*\('
later="$later|extractps|insertps|pm(in|ax)(sb|sd|uw|ud)|pmul(ld|dq)|pmov[sz]x|ptest|round|packusdw|pcmp(eqq|gtq|[ei]str)|crc32|popcnt|lzcnt|andn |bextr|bls|v[a-z]+ "
if grep -E "^($later)" "$built/code" >"$built/found"; then
    fail "the archive has instructions beyond SSE2: $(head -n 1 "$built/found")"
fi
# A function that gcc makes use the red zone must be noticed beside the archive's.
echo 'int leaf(int x); int leaf(int x) { volatile int a[4]; a[x & 3] = x; return a[0]; }' >"$built/leaf.c"
gcc -std=c11 -O2 -mred-zone -fomit-frame-pointer -c -o "$built/leaf.o" "$built/leaf.c"
python3 tools/red_zone.py "$archive" "$built/leaf.o" || fail "the archive keeps other values below the stack pointer than the header says"
echo "the archive's code uses xmm registers, nothing beyond SSE2 but tzcnt, and keeps nothing below the stack pointer but where it plans or counts"
echo "firmware page: every claim holds, $spoilt spoilt listings noticed"
