#!/usr/bin/env bash
# The script `stack` and the scripts that it calls, where words, files, surroundings and signals are hostile.
set -u
top=$(cd "$(dirname "${BASH_SOURCE[0]}")/../.." && pwd)
"$top/stack" prove || exit 1
PYTHONDONTWRITEBYTECODE=1 python3 "$top/.ci/tools/script_rows.py" "$top/stack" || exit 1
echo "script: ok"
