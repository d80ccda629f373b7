#!/usr/bin/env bash
# The program over a shelf and a sink in memory, of which calls fail: what `run_in_memory` of cli_stack leaves there, in a trial. That function is
# proved with its crate. The tests that run it aren't: they are put into a copy, since with them in the crate the gate would prove it twice.
set -u
top=$(cd "$(dirname "${BASH_SOURCE[0]}")/../.." && pwd)
folder=$(mktemp -d) || exit 1
trap 'rm -rf "$folder"' EXIT

cd "$top" && git ls-files -z crates crates.txt HANDLES | xargs -0 cp --parents -t "$folder" || exit 1
cp .ci/tools/in_memory.tests "$folder/crates/cli_stack/src/in_memory_tests.rt" || exit 1
cd "$folder/crates/cli_stack" && sed -i 's/^mod in_memory;$/&\n#[cfg(test)]\nmod in_memory_tests;/' src/main.rt || exit 1

said=$(rt try --test 2>&1)
if ! grep -q '^test result: ok\. 4 passed; 0 failed' <<<"$said"; then
    echo "in_memory: FAILED"
    tail -20 <<<"$said"
    exit 1
fi
echo "in_memory: ok"
