#!/usr/bin/env bash
# What the script `stack` tells a person beside the program's own output.
set -u
top=$(cd "$(dirname "${BASH_SOURCE[0]}")/../.." && pwd)
"$top/stack" prove || exit 1
PYTHONDONTWRITEBYTECODE=1 python3 "$top/.ci/tools/help_rows.py" "$top/stack" || exit 1
echo "help: ok"
