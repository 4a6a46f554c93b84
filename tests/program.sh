#!/usr/bin/env bash
# Builds a program of crates/, with its proofs, and prints where the executable lies: program.sh NAME
set -euo pipefail
cd "$(dirname "$0")/../crates/$1"
rt run > /dev/null
echo "$PWD/out/$1"
