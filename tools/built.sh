#!/usr/bin/env bash
# shellcheck disable=SC2015 # fail ends the test, so what stands before it is a plain condition
# Tests that tools/jasminebrace is always the program of its sources, in a copy of them under a path with blanks. There a stand-in
# for rt hands out an archive that is proved already, and counts how often it is asked to.
# Usage: tools/built.sh ARCHIVE
set -euo pipefail
archive=$(realpath "$1")
root=$(realpath "$(dirname "$0")/..")
there=$(mktemp -d)
trap 'rm -rf "$there"' EXIT
copy="$there/a copy of it"
mkdir -p "$copy" "$there/bin" "$there/elsewhere"
(cd "$root" && tar -c --exclude='crates/*/out' c crates crates.txt samples tools) | tar -x -C "$copy"

cat >"$there/bin/rt" <<'STAND_IN'
#!/usr/bin/env bash
set -euo pipefail
case $1 in
    version) cat "$STAND_IN/version" ;;
    lib)
        [ "${PWD##*/}" = jasminebrace_c ] || { echo "rt: not in the crate's folder"; exit 2; }
        echo asked >>"$STAND_IN/asked"
        # Long enough for two runs to meet, and in several steps, so that a half-made archive can be seen.
        sleep 0.3
        echo "rt: chose --jobs 2 for rules"
        echo "crate rules: modules loaded=0 checked=5"
        [ ! -e "$STAND_IN/refuse" ] || { echo "logic=not-proved"; echo "rt: the library rules did not build, so nothing above it was checked"; exit 1; }
        echo "axioms std: none reached of the 2 declared"
        echo "logic=proved functions=2 sum=0"
        echo "fn jasminebrace_c::jb_plan: proved"
        echo "crate jasminebrace_c: modules loaded=5 checked=0"
        mkdir -p out
        head -c 100 "$STAND_IN/archive" >out/libjasminebrace_c.a
        sleep 0.3
        cp "$STAND_IN/archive" out/libjasminebrace_c.a
        echo "logic=proved functions=25 target=x86_64-unknown-linux-gnu sum=0"
        ;;
esac
STAND_IN
chmod +x "$there/bin/rt"
export STAND_IN="$there/stand-in"
mkdir "$STAND_IN"
cp "$archive" "$STAND_IN/archive"
echo "a kit" >"$STAND_IN/version"
: >"$STAND_IN/asked"

looked=0
fail() {
    echo "NOT AS IT SHOULD BE: $*"
    sed 's/^/    out: /' "$there/out"
    sed 's/^/    err: /' "$there/err"
    exit 1
}
# Runs the command from another folder; its output in out and err, its status in status.
try() {
    looked=$((looked + 1))
    status=0
    (cd "$there/elsewhere" && PATH="$there/bin:$PATH" "$copy/tools/jasminebrace" "$@") >"$there/out" 2>"$there/err" || status=$?
}
asked() { [ "$(wc -l <"$STAND_IN/asked")" -eq "$1" ] || fail "the library was made $(wc -l <"$STAND_IN/asked") times, not $1"; }
said() { grep -qxF -- "$1" "$there/$2" || fail "standard $2 lacks '$1'"; }

# The first run makes it, with a line for each crate; sheets are meant from the caller's folder.
cp "$root/samples/p1.sheet" "$there/elsewhere/a sheet"
try plan "a sheet"
[ "$status" -eq 0 ] || fail "the first run: status $status"
said 'place 2: row 2 (LO), slack 2 slots' out
said 'jasminebrace: crate rules proved' err
said 'jasminebrace: crate jasminebrace_c proved' err
said 'jasminebrace: the library is proved and compiled' err
asked 1
# The second run makes nothing and says nothing of it.
try plan --plain "a sheet"
[ "$status" -eq 0 ] && [ ! -s "$there/err" ] || fail "the second run"
asked 1
# It is reached by a link too, and from its own folder.
looked=$((looked + 1))
ln -s "$copy/tools/jasminebrace" "$there/elsewhere/link"
(cd "$copy/samples" && PATH="$there/bin:$PATH" "$there/elsewhere/link" plan p2.sheet) >"$there/out" 2>"$there/err" || fail "by a link"
said 'place 1: row 3 (HI), slack 0 slots' out
asked 1

# A changed C source is compiled, and the library is not made again for it.
sed -i 's/jasminebrace, interface/changed, interface/' "$copy/c/command.c"
try --version
grep -q '^changed, interface' "$there/out" || fail "the changed C source does not show"
asked 1
# Every file that it is compiled from counts: those that gcc names.
included=$(cd "$copy" && gcc -MM c/command.c | grep -o '[^ ]*\.h')
[ "$(wc -l <<<"$included")" -eq 3 ] || fail "the command includes not three headers but these: $included"
for header in $included; do
    echo '#error this does not compile' >>"$copy/$header"
    try --version
    [ "$status" -eq 3 ] || fail "$header does not compile: status $status"
    said 'jasminebrace: c/command.c does not compile' err
    [ ! -s "$there/out" ] || fail "an old program answered"
    sed -i '$d' "$copy/$header"
    try --version
    [ "$status" -eq 0 ] || fail "$header as it was"
done

# Every other source, and another kit, make the library anew; what the kit itself has made does not.
made=1
proof=$(cd "$copy" && find crates -path 'crates/*/proofs/*' -name '*.antt' -print -quit)
for source in crates.txt tools/archive.sh crates/rules/src/lib.rt crates/theory/proofs/Results.antt "$proof"; do
    [ -f "$copy/$source" ] || fail "$source is no source"
    echo >>"$copy/$source"
    try --version
    made=$((made + 1))
    asked "$made"
done
mkdir -p "$copy/crates/rules/out/rlib/src"
: >"$copy/crates/rules/out/rlib/src/lib.rt"
try --version
asked "$made"
echo "another kit" >"$STAND_IN/version"
try --version
made=$((made + 1))
asked "$made"
rm "$copy/$proof"
try --version
made=$((made + 1))
asked "$made"
[ "$(find "$copy/target/command" -name 'jasminebrace-*' | wc -l)" -eq 1 ] || fail "programs of earlier sources are kept"

# A library that is not proved: status 3, what the prover said, and no old program in its place.
touch "$STAND_IN/refuse"
echo >>"$copy/crates.txt"
try plan "a sheet"
[ "$status" -eq 3 ] && [ ! -s "$there/out" ] || fail "not proved: status $status"
said 'rt: the library rules did not build, so nothing above it was checked' err
grep -q 'crate rules proved' "$there/err" && fail "not proved, and said to be"
rm "$STAND_IN/refuse"

# What a run that was broken off has left is cleared away by the next that makes something.
mkdir "$copy/target/command/making.left"
try --version
[ "$status" -eq 0 ] || fail "after a run that was broken off: status $status"
[ ! -e "$copy/target/command/making.left" ] || fail "what was left is still there"

# Runs at once, with nothing made: each gives the right answer, the library is made once, and nothing half-made is left.
rm -rf "$copy/target"
: >"$STAND_IN/asked"
looked=$((looked + 1))
runs=()
for run in 1 2 3 4; do
    (cd "$there/elsewhere" && PATH="$there/bin:$PATH" "$copy/tools/jasminebrace" plan --plain "a sheet" >"$there/out.$run" 2>"$there/err.$run") &
    runs+=($!)
done
for run in 1 2 3 4; do
    wait "${runs[$((run - 1))]}" || { cp "$there/out.$run" "$there/out"; cp "$there/err.$run" "$there/err"; fail "one of four runs at once"; }
    cmp -s "$there/out.1" "$there/out.$run" || fail "four runs at once differ"
done
grep -q '^       1       1       0$' "$there/out.1" || fail "four runs at once"
asked 1
[ -z "$(find "$copy/target/command" -name 'making.*')" ] || fail "something half-made is left"

# Missing tools are named, with status 3, whether or not something was made before.
mkdir "$there/few"
for tool in bash env sed tee tail find sort xargs sha256sum cut cat cp mv mktemp rm mkdir dirname readlink flock sleep head wc; do
    ln -s "$(command -v "$tool")" "$there/few/$tool"
done
for missing in rt gcc; do
    rm -rf "$copy/target"
    looked=$((looked + 1))
    [ "$missing" = rt ] || ln -s "$there/bin/rt" "$there/few/rt"
    status=0
    (cd "$there/elsewhere" && PATH="$there/few" "$copy/tools/jasminebrace" plan "a sheet") >"$there/out" 2>"$there/err" || status=$?
    [ "$status" -eq 3 ] && [ ! -s "$there/out" ] || fail "$missing is missing: status $status"
    grep -q "^jasminebrace: the tool $missing is missing; " "$there/err" || fail "$missing is missing, and not named"
done

# A folder in which nothing can be made.
rm -rf "$copy/target"
: >"$copy/target"
try plan "a sheet"
[ "$status" -eq 3 ] && [ ! -s "$there/out" ] || fail "nothing can be made: status $status"

echo "built: $looked runs, always the program of the sources"
