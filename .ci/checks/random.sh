#!/usr/bin/env bash
# Random sources, products and infix programs: what the program says of them, beside what evaluators in Python say; random sources by `quick`, beside
# `go`; random words, as text and back; and random programs for the processor, which change their own code, beside an interpreter in C.
set -u
export STACK_EXPLAIN=0
top=$(cd "$(dirname "${BASH_SOURCE[0]}")/../.." && pwd)

# It is proved and built where that isn't done yet.
"$top/stack" prove || exit 1
export PROGRAM=$top/crates/cli_stack/out/cli_stack PYTHONDONTWRITEBYTECODE=1
failed=0
python3 "$top/.ci/tools/random_sources.py" "$PROGRAM" 1 60 || failed=1
python3 "$top/.ci/tools/random_quick.py" "$PROGRAM" 1 60 || failed=1
python3 "$top/.ci/tools/random_products.py" "$PROGRAM" 2000 || failed=1
python3 "$top/.ci/tools/random_infix.py" "$PROGRAM" 1 60 || failed=1
python3 "$top/.ci/tools/random_words.py" "$PROGRAM" || failed=1
python3 "$top/.ci/tools/random_programs.py" "$PROGRAM" || failed=1

# fails COMMAND MISTAKE SCRIPT WORD..: the script fails on the program with this mistake.
fails() {
    local told
    if told=$(COMMAND=$1 MISTAKE=$2 python3 "$top/.ci/tools/$3" "$top/.ci/tools/mistaken" "${@:4}"); then
        echo "random: $3 doesn't fail where $1 has the mistake $2:"
        head -5 <<<"$told"
        failed=1
    fi
}
fails mean 's/^counted \(.*\)$/counted 1\1/' random_sources.py 1 1
fails go 's/^condition normal$/condition leave/' random_products.py 66
fails run 's/^condition normal$/condition leave/' random_quick.py 1 20
fails mini 's/^refused Y2 /refused Y1 /' random_infix.py 1 10
fails asm 's/^built /build /' random_words.py 1000
fails run 's/^finished \(.*\)$/finished 1\1/' random_programs.py 40
[ "$failed" = 0 ] && echo "random: ok"
exit "$failed"
