#!/bin/sh
# Runs each measurement of bench/ on the program as it was built.
set -eu
cd "$(dirname "$0")/.."
program=crates/avscan/out/avscan
for bench in bench/*/run.py bench/scan/tree.py bench/scan/start.py bench/scan/one.py; do
    echo "bench: $bench"
    python3 "$bench" "$program"
done
