#!/usr/bin/env bash
# The rows of the folder conformance, on the built program; that a program with a mistake fails there, by the name of the row; and what the
# program does where a device fails.
set -u
export STACK_EXPLAIN=0
top=$(cd "$(dirname "${BASH_SOURCE[0]}")/../.." && pwd)
folder=$(mktemp -d) || exit 1
trap 'rm -rf "$folder"' EXIT
command -v cc >/dev/null || { echo "rows: FAILED, not run: there is no C compiler"; exit 1; }

# It is proved and built where that isn't done yet.
"$top/stack" prove || exit 1
export PROGRAM=$top/crates/cli_stack/out/cli_stack
failed=0
"$top/conformance/run" "$PROGRAM" || failed=1

# tells COMMAND MISTAKE FILE ROW: the program with this mistake fails in that file of rows, and a line tells the row.
tells() {
    local told status
    told=$(COMMAND=$1 MISTAKE=$2 "$top/conformance/run" "$top/.ci/tools/mistaken" "$3")
    status=$?
    if [ "$status" != 1 ] || ! grep -q "^$3:$4: " <<<"$told"; then
        echo "rows: $1 with the mistake $2 ends with status $status, and $3 doesn't tell $4:"
        head -5 <<<"$told"
        failed=1
    fi
}
tells check 's/^refused M3 at 9$/refused M3 at 8/' check.rows '[0-9]*: check t'
tells show 's/^flags c--z$/flags c--y/' show.rows '[0-9]*: show i'
tells go 's/^finished 28$/finished 29/' go.rows '[0-9]*: go s v 7 3 28 i'
tells run 's/^image I7 at 113$/image I7 at 112/' run.rows '[0-9]*: run i v 9'

cc -shared -fPIC -O1 -o "$folder/failing.so" "$top/.ci/tools/failing_devices.c" -ldl || exit 1
PYTHONDONTWRITEBYTECODE=1 python3 "$top/.ci/tools/failing_devices.py" "$PROGRAM" "$folder/failing.so" || failed=1
[ "$failed" = 0 ] && echo "rows: ok"
exit "$failed"
