#!/bin/sh
# What `make install` puts where, of programs that are built: each program runs from there, each manual page renders without a
# warning where man is there, and bash takes the completions. The last line counts the files.
# usage: tests/install.sh PROGRAM, avscan in the folder of its crate, beside whose crate those of the other programs are
set -eu
built=$(realpath "$(dirname "$1")/../..")
cd "$(dirname "$0")/.."
room=$(mktemp -d)
trap 'rm -rf "$room"' EXIT
passed=0
failed=0

# a file below the room, its mode, and a command that has to pass
check() {
    file=$room/usr/$1 mode=$2
    shift 2
    if [ -s "$file" ] && [ "$(stat -c %a "$file")" = "$mode" ] && "$@" "$file" > "$room/said" 2>&1 && ! [ -s "$room/said" ]; then
        passed=$((passed + 1))
    else
        echo "install: $file is not there, not $mode, or does not do"
        cat "$room/said" 2> /dev/null || true
        failed=$((failed + 1))
    fi
}
says_version() {
    "$1" --version | grep -q "^$(basename "$1") [0-9]" || return 1
    case $1 in
    */avscan) "$1" scan examples/test.avsig examples/letter.txt > /dev/null ;;
    */avtool) "$1" chart examples/late_reply.avs > /dev/null ;;
    *) "$1" run --help > /dev/null ;;
    esac
}
# where the compilers are there
compiles() {
    for compiler in "cc -std=c11 -xc" "c++ -std=c++11 -xc++"; do
        command -v ${compiler%% *} > /dev/null || continue
        printf '#include <avask.h>\nint main(void) { return av_connect("/none") < 0 ? 0 : 1; }\n' |
            $compiler -Wall -Wextra -Werror -Wno-unused-function -I"$(dirname "$1")" -o "$room/client" - || return 1
        "$room/client" || return 1
    done
}
says_usage() {
    "$1" -h | grep -q '^usage: '
}
# in 80 columns, with no warning, no wider line, no markdown and no name of a document that is not installed
renders() {
    command -v man > /dev/null || return 0
    MANWIDTH=80 man --warnings -E UTF-8 -Tutf8 -l "$1" > "$room/page"
    col -bx < "$room/page" | grep -nE '.{81}|`|\*\*[A-Za-z]|\]\(|\.md\b|docs/|examples/' >&2 || true
}

make -s install-built BUILT="$built" DESTDIR="$room" PREFIX=/usr > "$room/log"
for name in avscan avguard avtool; do
    check "bin/$name" 755 says_version
    check "share/man/man1/$name.1" 644 renders
    check "share/bash-completion/completions/$name" 644 bash -n
    check "share/zsh/site-functions/_$name" 644 true
    check "share/fish/vendor_completions.d/$name.fish" 644 true
done
check share/man/man5/avsig.5 644 renders
check share/man/man5/avscript.5 644 renders
check include/avask.h 644 compiles
wanted=18
# the helper for fanotify is not left out where it can be built
if printf '#include <sys/fanotify.h>\n' | cc -fsyntax-only -xc - 2> /dev/null; then
    check bin/avguard-onaccess 755 says_usage
    wanted=19
fi
found=$(find "$room/usr" -type f | wc -l)
if [ "$found" != "$wanted" ]; then
    echo "install: $found files, not $wanted"
    failed=$((failed + 1))
fi
echo "$passed passed, $failed failed"
[ "$failed" = 0 ]
