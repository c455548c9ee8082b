#!/usr/bin/env bash
# Proves the library and writes its archive, target/staticlib/libjasminebrace.a. What the prover says goes to standard output.
# The archive is compiled for the first x86-64 processors, so that it runs on every one; left to itself, rt compiles for later ones.
set -euo pipefail
cd "$(dirname "$0")/.."
(cd crates/jasminebrace_c && rt lib --cpu x86-64)
mkdir -p target/staticlib
# It gets its name when it is whole.
making=target/staticlib/making.$$
trap 'rm -f "$making"' EXIT
cp crates/jasminebrace_c/out/libjasminebrace_c.a "$making"
mv "$making" target/staticlib/libjasminebrace.a
