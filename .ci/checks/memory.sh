#!/usr/bin/env bash
# Out of memory, both ways. Each allocation of each command fails in turn: how the command ends, what it prints, and what it leaves. And where
# none is refused, no run of the rows of conformance ends by it.
set -u
export STACK_EXPLAIN=0 PYTHONDONTWRITEBYTECODE=1
top=$(cd "$(dirname "${BASH_SOURCE[0]}")/../.." && pwd)
folder=$(mktemp -d) || exit 1
trap 'rm -rf "$folder"' EXIT
command -v cc >/dev/null || { echo "memory: FAILED, not run: there is no C compiler"; exit 1; }
"$top/stack" prove || exit 1
program=$top/crates/cli_stack/out/cli_stack
failing=$folder/failing.so counting=$folder/counting.so
cc -shared -fPIC -O1 -o "$failing" "$top/.ci/tools/failing_allocations.c" -ldl || exit 1
cc -shared -fPIC -O1 -o "$counting" "$top/.ci/tools/counting_allocations.c" -ldl || exit 1
python3 "$top/.ci/tools/failing_memory.py" "$program" "$failing" || exit 1
python3 "$top/.ci/tools/counted_rows.py" "$program" "$counting" || exit 1

# tells WHAT WORD ..: where the ninth allocation of each run fails, these words of counted_rows.py have it tell this.
tells() {
    local told
    told=$(FAILING=9 python3 "$top/.ci/tools/counted_rows.py" "$program" "$counting" --rows show.rows "${@:2}")
    if [ "$?" != 1 ] || ! grep -q "$1" <<<"$told"; then
        echo "memory: with ${*:2} the counted rows don't tell: $1"
        exit 1
    fi
}
# The counting library sees the refusal, or it is before it and sees status 14 alone.
tells '^counted rows: [1-9][0-9]* runs had an allocation refused' --behind "$failing"
tells '^counted rows: [1-9][0-9]* runs end with status 14, and no allocation was refused' --before "$failing"
echo "memory: ok"
