#!/usr/bin/env bash
# Counts the plannings of each search for a least workable speed: how often the archive's planner::plan is entered while the benchmark
# makes every search once, under gdb. For docs/BENCHMARKS.md, after tools/archive.sh; the gate does not run it.
# Needs cargo, nm and gdb. It prints what is sought, the rows, the least speed (work units per slot), the plannings of plain Rust and
# those of the library.
set -euo pipefail
cd "$(dirname "$0")/.."

cannot() {
    echo "plannings.sh: $*" >&2
    exit 3
}
for tool in cargo nm gdb; do
    command -v "$tool" >/dev/null || cannot "$tool is missing; without it no planning is counted"
done
cargo build --quiet --offline --release --manifest-path compiled/Cargo.toml --target-dir compiled/target --bin bench
bench=compiled/target/release/bench
[ "$(nm "$bench" | grep -c ' planner::plan$')" -eq 1 ] || cannot "the archive has not one function planner::plan, and so its calls cannot be counted"
there=$(mktemp -d)
trap 'rm -rf "$there"' EXIT

# Each search prints the plannings since the one before began, and the end those of the last.
cat >"$there/commands" <<EOF
set pagination off
set \$plannings = 0
break *&'planner::plan'
commands
silent
set \$plannings = \$plannings + 1
continue
end
break *&jb_least_degraded
break *&jb_least_normal
commands 2-3
silent
printf "plannings %d\n", \$plannings
set \$plannings = 0
continue
end
run searches >"$there/searches"
printf "plannings %d\n", \$plannings
EOF
gdb -q -nx -batch -x "$there/commands" "$bench" >"$there/log" 2>&1 || true
sed -n 's/^plannings //p' "$there/log" | tail -n +2 >"$there/counts"
searches=$(wc -l <"$there/searches" 2>/dev/null || echo 0)
if [ "$searches" -eq 0 ] || [ "$(wc -l <"$there/counts")" -ne "$searches" ] || grep -qx 0 "$there/counts"; then
    tail -n 5 "$there/log" >&2
    cannot "gdb did not count the plannings of each search; its last lines are above"
fi
printf '%-28s%5s%8s%12s%10s\n' what rows speed 'plain Rust' library
paste -d ' ' "$there/searches" "$there/counts" | awk '{ count = $NF; sub(/ [0-9]+$/, ""); printf "%s%10d\n", $0, count }'
