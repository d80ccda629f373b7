#!/usr/bin/env bash
# The scripts that ask the program: pages of runs, traces and listings show what the program says, and the ready pages are what is written now.
set -u
cd "$(dirname "${BASH_SOURCE[0]}")/../.." || exit 1
export PYTHONDONTWRITEBYTECODE=1
./stack prove || exit 1
program=crates/cli_stack/out/cli_stack
python3 .ci/tools/asking_rows.py "$program" && python3 .ci/tools/end_rows.py "$program" && python3 .ci/tools/page_rows.py "$program" || exit 1
python3 tools/ready_pages.py "$program" || exit 1
python3 tools/quick_pictures.py "$program" || exit 1
if told=$(PROGRAM=$PWD/$program COMMAND=debug MISTAKE='s/^condition normal$/condition leave/' python3 tools/ready_pages.py .ci/tools/mistaken); then
    echo "page: the ready pages of a program with a mistake are taken for right: $told"
    exit 1
fi
echo "page: ok"
