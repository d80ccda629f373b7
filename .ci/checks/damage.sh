#!/usr/bin/env bash
# Damaged files: each command ends with a status of its own, and soon, whatever one byte of a file became and wherever the file was cut.
set -u
export STACK_EXPLAIN=0
top=$(cd "$(dirname "${BASH_SOURCE[0]}")/../.." && pwd)
"$top/stack" prove || exit 1
export PROGRAM=$top/crates/cli_stack/out/cli_stack PYTHONDONTWRITEBYTECODE=1
python3 "$top/.ci/tools/damage.py" "$PROGRAM" || exit 1
if told=$(COMMAND=cert CRASH='^certificate Z2' python3 "$top/.ci/tools/damage.py" "$top/.ci/tools/mistaken" --only certificate); then
    echo "damage: a program that ends by a signal isn't found:"
    echo "$told"
    exit 1
fi
echo "damage: ok"
