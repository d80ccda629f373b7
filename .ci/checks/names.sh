#!/usr/bin/env bash
# Labels that were picked to collide in a hash table take no more instructions than ordinary ones. Where Valgrind, which counts them, isn't installed, a
# line says what wasn't seen, and the check passes.
set -u
export STACK_EXPLAIN=0 PYTHONDONTWRITEBYTECODE=1
top=$(cd "$(dirname "${BASH_SOURCE[0]}")/../.." && pwd)
"$top/stack" prove || exit 1
told=$(python3 "$top/.ci/tools/picked_names.py" "$top/crates/cli_stack/out/cli_stack")
status=$?
[ "$status" = 2 ] && echo "names: not seen: instructions of picked names. $told" || echo "$told"
[ "$status" = 0 ] || [ "$status" = 2 ] || exit 1
echo "names: ok"
