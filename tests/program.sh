#!/usr/bin/env bash
# The built program, run as a user runs it: exit status, both streams, and each byte of every file that
# stands afterwards, in the output folder and beside it.
#
# Run it at the top of the repository, once `rt ci` or `make` has built the program; TRIAGE names another one. It
# prints a line for each case that differs, and ends with 'N passed, M failed'. The cases stand in `tests/program/`,
# a file for each subject, and `cases.sh` there says what a case is.
set -u
export LC_ALL=C

cd "$(dirname "$0")/.." || exit 1
top=$PWD
PROGRAM=${TRIAGE:-$PWD/crates/triage/out/triage}
if [ ! -x "$PROGRAM" ]; then
    echo "skipped: no program at $PROGRAM"
    exit 0
fi

. "$top/tests/program/cases.sh"
for subject in scans generate parts pages borders options words lists folders output; do
    . "$top/tests/program/$subject.sh"
done

echo "$passed passed, $failed failed"
[ "$failed" = 0 ]
