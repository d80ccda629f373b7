#!/usr/bin/env bash
# Sessions that are asked line by line: over a pipe each answer has come before the next line is written. A program that asks for all lines first fails.
set -u
export PYTHONDONTWRITEBYTECODE=1
top=$(cd "$(dirname "${BASH_SOURCE[0]}")/../.." && pwd)
folder=$(mktemp -d) || exit 1
trap 'rm -rf "$folder"' EXIT
"$top/stack" prove || exit 1
export PROGRAM=$top/crates/cli_stack/out/cli_stack
python3 "$top/.ci/tools/pipe_rows.py" "$PROGRAM" --stack "$top/stack" || exit 1

printf '%s\n' '#!/bin/sh' 'cat >"$0.lines"; exec "$PROGRAM" "$@" <"$0.lines"' >"$folder/ahead"
chmod +x "$folder/ahead"
told=$(python3 "$top/.ci/tools/pipe_rows.py" "$folder/ahead" --wait 2)
if [ "$?" != 1 ] || ! grep -q "^pipe: ('ahead', 'gypsy', 'show'): ''" <<<"$told"; then
    echo "pipe: a program that asks for all lines first passes: $told"
    exit 1
fi
echo "pipe: ok"
