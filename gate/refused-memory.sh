#!/bin/sh
# Refused memory: runs each test whose name begins with `refused_or_not_` once for each request for memory that its marked calls make,
# with that request refused. The test must pass each time. Takes the programs that `rt test` or `rt ci` built of crates' tests
# (crates/NAME/out/NAME_tests), and wants a C compiler. The last line counts the tests.
set -eu
cd "$(dirname "$0")/.."
work=$(mktemp -d)
trap 'rm -rf "$work"' EXIT
cc -shared -fPIC -O1 -o "$work/fail_nth.so" tests/fail_nth.c
passed=0
failed=0

# a test's program and name
refuse_each() {
    tests=$1 name=$2 n=1
    while :; do
        rm -f "$work/report"
        if ! FAIL_MARKED=1 FAIL_NTH=$n FAIL_REPORT="$work/report" LD_PRELOAD="$work/fail_nth.so" \
            "$tests" "$name" > "$work/out" 2>&1; then
            echo "$name: does not pass with request $n refused"
            cat "$work/out"
            return 1
        fi
        if ! [ -f "$work/report" ]; then
            echo "$name: ended without a report of its requests"
            return 1
        fi
        if grep -q ' refused 0$' "$work/report"; then
            break
        fi
        n=$((n + 1))
    done
    if [ $n = 1 ]; then
        echo "$name: marks no call that requests memory"
        return 1
    fi
    echo "$name: passes with each of $((n - 1)) requests refused in turn"
}

for tests in "$@"; do
    "$tests" --list | sed -n 's/: test$//p' | grep -E '(^|::)refused_or_not_' > "$work/names" || {
        echo "${tests##*/}: no test is named for refused memory"
        failed=$((failed + 1))
    }
    while read -r name; do
        if refuse_each "$tests" "$name"; then passed=$((passed + 1)); else failed=$((failed + 1)); fi
    done < "$work/names"
done
echo "$passed passed, $failed failed"
[ "$failed" = 0 ]
