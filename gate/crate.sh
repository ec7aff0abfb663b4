#!/bin/sh
# The gate of one crate, for work between commits: it and those that stand on it are proved over what was kept, side by side, their tests
# are run, and of its own must-fail edits those are tried that were not refused before as they are. `make test CRATE=av_store` calls it. The
# whole gate alone is the verdict.
set -eu
cd "$(dirname "$0")/.."
wanted=$1
grep -q "^$wanted:" crates.txt || { echo "make: crates.txt has no crate $wanted" >&2; exit 2; }
begun=$(date +%s)
failed=0
python3 gate/prove.py --above "$wanted" || failed=$((failed + 1))
python3 gate/run_tests.py --above "$wanted" || failed=$((failed + 1))
if [ -d "crates/$wanted/must-fail" ]; then python3 gate/edits.py --changed "$wanted" || failed=$((failed + 1)); fi
echo "gate: $wanted and what stands on it: $(($(date +%s) - begun)) s, $failed failed"
[ "$failed" = 0 ]
