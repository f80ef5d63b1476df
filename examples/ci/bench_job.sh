#!/bin/bash
# A CI job around a bench: records a bus while the bench runs, ends the recorder, judges the log, and writes a report.
#
#   bench_job.sh MAP RECORDER BENCH..
#
# RECORDER is one word, such as 'candump -L can0', and writes each frame at once. BENCH.. is the bench, with arguments.
# bus.log, watch.jsonl, report.txt and junit.xml stand in the folder in which the job runs, however it ends. It ends
# with the status of `watch`. If that is 0, it ends with 5 if the recorder ended before the bench did, with 3 if it wrote
# nothing in the last SILENCE seconds of the bench (5 if none are given), else with the status of the bench. WATCH and
# EXPLAIN name the programs, else they are those of this repository. Without LIMITS `watch` has --strict.
set -eu
here=$(dirname "$0")
watch=${WATCH:-$here/../../bin/watch} explain=${EXPLAIN:-$here/../../bin/explain}
# other programs have these names, too
for it in "$watch" "$explain"; do
    "$it" --version | grep -q Rathonsi || { echo "bench_job: $it is no program of Rathonsi" >&2; exit 2; }
done
map=$1 recorder=$2
shift 2

: >bus.log
$recorder >bus.log &
recording=$!
# a bench that fails or is cut short leaves no recorder behind
trap 'kill "$recording" 2>/dev/null || true' EXIT

bench=0
"$@" || bench=$?
# a bus that died as a whole: a log ends with its last frame, so only the recorder knows
silent=$(($(date +%s) - $(stat -c %Y bus.log)))
early=0
kill "$recording" 2>/dev/null || early=5
wait "$recording" || true

verdict=0
"$watch" --quiet --json ${LIMITS---strict} "$map" bus.log >watch.jsonl || verdict=$?
"$explain" "$map" bus.log >explained.txt || true
{
    echo "bench: status $bench"
    echo "watch: status $verdict"
    [ "$early" = 0 ] || echo "the recorder ended before the bench did"
    if grep -qE '^ *(\([^)]*\) +)?[a-z]+[0-9]+ +[0-9A-F]{3,8} +\[[0-9]+\]' bus.log; then
        echo "bus.log looks like candump without -L: use -L"
    fi
    [ "$silent" -le "${SILENCE:-5}" ] || echo "the recorder wrote nothing in the last $silent seconds"
    grep -E '"kind":"(frame|over|silent)"|"accepted":0,' watch.jsonl || true
    cat explained.txt
} >report.txt
python3 "$here/junit.py" "$map" explained.txt <watch.jsonl >junit.xml || true

[ "$verdict" = 0 ] || exit "$verdict"
[ "$early" = 0 ] || exit "$early"
[ "$silent" -le "${SILENCE:-5}" ] || exit 3
exit "$bench"
