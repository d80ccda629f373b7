#!/usr/bin/env bash
# The program where the system gives little: the stack of docs/working/limits.md, a limit for the length of files, an end by a signal while it stores.
set -u
export STACK_EXPLAIN=0
top=$(cd "$(dirname "${BASH_SOURCE[0]}")/../.." && pwd)
"$top/stack" prove || exit 1
PYTHONDONTWRITEBYTECODE=1 python3 "$top/.ci/tools/system_rows.py" "$top/crates/cli_stack/out/cli_stack" || exit 1
echo "system: ok"
