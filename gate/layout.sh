#!/bin/sh
# The files of tests are laid out as `rt fmt` lays them out: `rt ci` looks at the other files alone. The last line counts the crates.
set -eu
cd "$(dirname "$0")/.."
copy=$(mktemp -d)
trap 'rm -rf "$copy"' EXIT
cp HANDLES crates.txt "$copy/"
passed=0
failed=0
for crate in $(grep -l '#\[test\]' -r crates/*/src | cut -d / -f 2 | sort -u); do
    mkdir -p "$copy/crates/$crate"
    cp -r "crates/$crate/src" "$copy/crates/$crate/"
    if (cd "$copy/crates/$crate" && rt fmt) > "$copy/log" 2>&1 && diff -r "crates/$crate/src" "$copy/crates/$crate/src" > "$copy/log"; then
        passed=$((passed + 1))
    else
        echo "$crate: rt fmt would lay out its files otherwise:"
        head -n 20 "$copy/log"
        failed=$((failed + 1))
    fi
done
echo "$passed passed, $failed failed"
[ "$failed" = 0 ]
