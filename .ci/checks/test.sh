#!/usr/bin/env bash
# `./stack test`: it passes on the proved program, and fails on one that has a mistake or isn't over in time. What it says of a program that a trial
# built is in start.sh.
set -u
top=$(cd "$(dirname "${BASH_SOURCE[0]}")/../.." && pwd)
folder=$(mktemp -d) || exit 1
trap 'rm -rf "$folder"' EXIT
"$top/stack" prove || exit 1
failed=0

# wants STATUS LINE WORD..: the script in the copy ends so on these words, and some line that it prints is such a one, by a pattern.
wants() {
    local status
    "$copy/stack" "${@:3}" >"$folder/out" 2>"$folder/err"
    status=$?
    if [ "$status" != "$1" ] || ! grep -q "^$2\$" "$folder/out"; then
        echo "test: ${*:3}: status $status, wanted $1, and no line $2:"
        tail -n 12 "$folder/out" "$folder/err"
        failed=1
    fi
}

count='[1-9][0-9,]*'
copy=$top
wants 0 "the proved program of commit [0-9a-f]*\(, and changes\)\?: $count passed, 0 failed, in [0-9]* seconds" test
for what in "rows of conformance" "commands that documents show" "random sources" "random sources by quick" "random products" "random infix programs" "text of a million random words" \
    "random programs for the processor" "runs on damaged files"; do
    grep -q "^ *$count $what, 0 failed\$" "$folder/out" || { echo "test: there are no $what:"; cat "$folder/out"; failed=1; }
done
wants 1 usage test everything

# The same with a program that has a mistake, as a release has it, without the gate's scripts.
copy=$folder/copy
mkdir -p "$copy/crates/cli_stack/out"
(cd "$top" && git ls-files -z stack guide conformance examples docs | xargs -0 cp --parents -t "$copy") || exit 1
printf "%s\n" "commit 0" "sha256 0" >"$copy/PROVED"
cp "$top/.ci/tools/mistaken" "$copy/crates/cli_stack/out/cli_stack"
export PROGRAM=$top/crates/cli_stack/out/cli_stack COMMAND=check MISTAKE='s/^refused M3 at 9$/refused M3 at 8/'
wants 1 "a program that isn't the one that was proved: $count passed, $count failed, in [0-9]* seconds" test
grep -q '^check.rows:[0-9]*: check t' "$folder/out" || { echo "test: the row isn't told:"; cat "$folder/out"; failed=1; }
grep -q '^not tried here, .*: examples, random, damage$' "$folder/out" || { echo "test: it isn't told what wasn't tried"; failed=1; }
sed -i 's/^SECONDS = 300$/SECONDS = 1/' "$copy/guide/testing.py"
MISTAKE= wants 1 " *rows of conformance: not over in time" test rows
[ "$failed" = 0 ] && echo "test: ok"
exit "$failed"
