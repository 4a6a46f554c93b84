#!/usr/bin/env bash
# Builds the reader as a static library, links the harness to it, and prints the table of times.
# With the beginning of a text's name it only reads that text many times, for a profiler.
set -euo pipefail
here="$(cd "$(dirname "$0")" && pwd)"
cd "$here/../.."
(cd crates/exports && rt lib > /dev/null)
mkdir -p target/bench
rustc --edition 2024 -O -C panic=abort -o target/bench/reading "$here/harness.rs" -L native=crates/exports/out -l static=exports
exec target/bench/reading "$@"
