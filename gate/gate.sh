#!/bin/sh
# The whole gate: every proof from nothing (`rt ci`), every test, what must not compile, each case of tests/ on the program as it was
# built, and the must-fail edits. The last line counts them all.
# `rt ci` runs in a copy without edits and almost without tests: it would try each edit in a check of its own, and prove each crate again
# with its tests. The edits are tried over the libraries that it built. They come last: first those that were not refused before on this
# machine as they are, of which none is begun once the gate has run for 140 minutes, and then the others, those first that were refused
# longest ago, until it has run for 60. A line says what was left. docs/GATE.md says what each part costs.
set -u
cd "$(dirname "$0")/.."
begun=$(date +%s)
room=$(mktemp -d)
trap 'rm -rf "$room"' EXIT
chmod 755 "$room"
mkdir -p out
times=$(pwd)/out/gate-times
: > "$times"
passed=0
failed=0
not_whole=
part=$begun
used_before=0
# what was done, whose time is noted, with the processor seconds of the commands that have ended since
done_with() {
    now=$(date +%s)
    times > "$room/used"
    used=$(awk 'NR == 2 { split($1, own, /[ms]/); split($2, kernel, /[ms]/); printf "%d", (own[1] + kernel[1]) * 60 + own[2] + kernel[2] }' "$room/used")
    echo "part $1 0 $((now - part)) $((used - used_before)) 0" >> "$times"
    echo "gate: $1 took $((now - part)) s, $((used - used_before)) of a processor; $((now - begun)) s since the start"
    part=$now
    used_before=$used
}
# a name, and a command whose last line counts what passed and failed
step() {
    name=$1
    shift
    "$@" | tee "$room/log"
    last=$(tail -n 1 "$room/log")
    case $last in
    *" passed, "*" failed")
        passed=$((passed + ${last%% passed*}))
        last=${last##*passed, }
        count=${last%% failed}
        ;;
    *)
        echo "gate: $* gave no count"
        count=1
        ;;
    esac
    failed=$((failed + count))
    if [ "$count" != 0 ]; then
        not_whole="$not_whole $name"
        { echo "gate: the last lines of $name:"; tail -n 20 "$room/log"; } >> "$room/failed"
    fi
    done_with "$name"
}

echo "gate: the layout of the tests"
step layout sh gate/layout.sh
echo "gate: the rows of tests, as the cases have them"
step rows-of-tests python3 tests/row_tables.py --check
echo "gate: each lemma is cited, and none of more than four lines stands twice"
step lemmas python3 gate/lemmas.py
echo "gate: the pages in plain English"
step plain python3 gate/plain.py
echo "gate: the figures of README.md, as bench/ has them"
step figures python3 bench/figures.py --check
echo "gate: the tables of definitions of docs/CHECK.md"
step definitions python3 gate/definitions.py --check
echo "gate: each public function has a must-fail edit, or a reason to have none"
step edited python3 gate/edited.py --check
echo "gate: each definition that a clause leads to is computed, or has a reason not to be"
step computed python3 gate/computed.py --check
echo "gate: proving every crate from nothing (rt ci)"
mkdir "$room/whole"
step rt-ci sh gate/whole.sh "$room/whole"
program=$room/whole/crates/avscan/out/avscan
[ -x "$program" ] || { echo "gate: rt ci built no program"; echo "$passed passed, $((failed + 1)) failed"; exit 1; }
echo "gate: the cases of tests/ on the built program"
step cases python3 tests/run.py "$program" tests/scripts tests/conduct tests/words tests/scan
echo "gate: a case for each row of the conduct"
step rows python3 tests/rows.py
echo "gate: the tables of cases"
step tables python3 tests/tables.py "$program"
echo "gate: scripts of a world, step by step"
step steps python3 tests/steps.py "$program"
echo "gate: random scripts beside the plain model"
step random-scripts python3 tests/random_scripts.py "$program"
echo "gate: scripts that the program generates"
step generate python3 tests/generate.py "$program"
echo "gate: pictures of runs"
step charts python3 tests/chart.py "$program"
echo "gate: signatures of other products"
step import python3 tests/import.py "$program"
echo "gate: signature files made into one"
step merge python3 tests/merge.py "$program"
echo "gate: signed signature files"
step trust python3 tests/trust.py "$program"
echo "gate: objects that go back to lines"
step objects python3 tests/objects.py "$program"
echo "gate: random scripts that are finished from where they stop"
step progress python3 tests/progress.py "$program"
echo "gate: the program over devices that fail, without memory, and in the order of its faults"
step program python3 tests/program.py "$program"
echo "gate: every program with each call that reads or writes failing in turn"
step faults python3 tests/faults.py "$program"
echo "gate: folders, lists and large files"
step files python3 tests/files.py "$program"
echo "gate: files under several signature sets"
step sets python3 tests/sets.py "$program"
echo "gate: files with a line for each signature that occurs"
step matches python3 tests/matches.py "$program"
echo "gate: infected files that are moved into a folder"
step moves python3 tests/moves.py "$program"
echo "gate: filter and service as processes, and a host"
step sockets python3 tests/sockets.py "$program"
echo "gate: a guard, and who asks it"
step watch python3 tests/watch.py "$program"
step parts python3 tests/parts.py "$program"
step large python3 tests/large.py "$program"
step paths python3 tests/paths.py "$program"
step guard python3 tests/guard.py "$program"
echo "gate: the log of a guard"
step log python3 tests/log.py "$program"
echo "gate: what a guard reports of itself"
step status python3 tests/status.py "$program"
step config python3 tests/config.py "$program"
step waits python3 tests/waits.py "$program"
step attacks python3 tests/attacks.py "$program"
echo "gate: a guard for a minute, beside all that happens to it"
step soak python3 tests/soak.py "$program"
step clients python3 tests/clients.py "$program"
step guarded-folder python3 tests/guarded_folder.py "$program"
echo "gate: what is installed, and where"
step install sh tests/install.sh "$program"
echo "gate: the Debian package"
step deb sh tests/deb.sh "$program"
echo "gate: what the documents name"
step documents python3 tests/docs.py "$program"
echo "gate: the tests, those of refused memory with each request refused in turn"
step tests python3 gate/run_tests.py --times "$times" --only run
echo "gate: refused memory, in tests that are built as for use"
step refused-memory sh gate/refused-memory.sh "$room"/whole/crates/*/out/*_tests
echo "gate: values that must be spent, once"
step must-be-spent python3 gate/must_be_spent.py
echo "gate: a program that embeds the filter"
step embed python3 gate/embed.py
echo "gate: must-fail edits, over the libraries that were built"
step edits python3 gate/edits.py --times "$times" --until $((begun + 8400)) --again $((begun + 3600)) --over "$room/whole/crates"
echo "gate: $(nproc) processors, $(($(date +%s) - begun)) s; out/gate-times has what each part took"
echo "gate: seconds, and of a processor:$(awk '$1 == "part" { printf " %s %d %d;", $2, $4, $5 }' "$times")"
[ -z "$not_whole" ] || { cat "$room/failed"; echo "gate: something failed in:$not_whole"; }
echo "$passed passed, $failed failed"
[ "$failed" = 0 ]
