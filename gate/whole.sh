#!/bin/sh
# Proves every crate from nothing and builds the program: `rt ci` in the empty folder that is named, in a copy without edits, and without
# tests but those of refused memory of three crates, which are built as for use.
set -eu
cd "$(dirname "$0")/.."
tar -c --exclude=must-fail --exclude=out HANDLES crates.txt crates tests | tar -x -C "$1"
python3 gate/strip_tests.py --keep refused_or_not_ --of av_cache,av_context,av_store "$1" > "$1/log"
cd "$1"
exec rt ci 2>&1
