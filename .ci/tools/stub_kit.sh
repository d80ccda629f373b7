#!/usr/bin/env bash
# Plays the kit's command `rt` for .ci/checks/start.sh, in the folder STUB: it proves nothing, and takes no time.
# As a gate it wants exactly the crates that are named in the file `needed` beside STUB. STUB/calls has a line for each call but `version`. STUB/proved has
# a file for each crate that was "proved". Further files tell it what to do: `silent`, the trial finds no answer; `endless`, it meets a limit; `fails`, the
# crate named in it isn't proved; `holds`, it waits in what is named in it, a crate or `try` or `program`, until it is ended.
set -u

# What the program prints on these words: the check looks for it. Without words it is `usage`.
program='[ $# -gt 0 ] || { echo usage; exit 1; }; echo "printed by the program: $*"; exit 7'

# A trial on the words: keeps what each file handed in has, spoils the file itself, stores the file that the script wants, and prints the words.
play_try() {
    local name file
    while [ "$1" != -- ]; do
        name=$STUB/handed/${2%%=*} file=${2#*=}
        mkdir -p "${name%/*}" && cp "$file" "$name" && echo spoiled >"$file"
        shift 2
    done
    shift
    hold_at try
    [ ! -e "$STUB/silent" ] || { echo "run=none proved=no" >&2; exit 6; }
    if [ -e "$STUB/endless" ]; then
        printf '%s\n' "checked: no-answer: the program did not end within the time limit" "run=no-answer proved=no" >&2
        exit 6
    fi
    link_trial
    [[ ${*: -1} != */stored ]] || echo "stored by the trial" >"${*: -1}"
    echo "printed by the trial: $*"
    echo "run=ended status=5 runners=1 proved=no" >&2
    exit 5
}

# Links the program of a trial, as the kit does in a folder of its own, where it has a linker.
link_trial() {
    local linker=${0%/bin/rt}/toolchain/bin/ld.lld
    [ ! -x "$linker" ] || (cd "$(mktemp -d)" && "$linker" -o program)
}

# Waits where `holds` names this place, with a child, as the kit has them, until this process is ended. It ends the child then.
hold_at() {
    [ "$1" = "$(cat "$STUB/holds" 2>/dev/null)" ] || return
    sleep 600 &
    trap 'kill "$!"; wait "$!"; exit 143' INT TERM
    printf '%s\n' "$$" "$!" >"$STUB/held"
    wait
}

play_ci() {
    local crate failed=
    sed 's/:.*//' crates.txt | sort | cmp - <(sort "$STUB/../needed") || { echo "rt: other crates are there"; exit 1; }
    [ -e HANDLES ] && [ ! -e crates/fm_machine/must-fail ] && [ -e crates/fm_machine/proofs ] || { echo "rt: not what the gate of the program has"; exit 1; }
    while read -r crate; do
        hold_at "$crate"
        if [ -e "$STUB/proved/$crate" ]; then
            echo "rt: $crate is kept: an earlier run on this machine proved the same files over the same libraries"
            continue
        fi
        echo "== $crate"
        if [ "$crate" = "$(cat "$STUB/fails" 2>/dev/null)" ]; then
            seq -f "line %g of $crate" 30
            echo "rt: $crate NOT PROVED"
            failed=$crate
        else
            echo "fn $crate::f: proved"
            echo "logic=proved functions=1"
            echo "rt: $crate proved"
            touch "$STUB/proved/$crate"
        fi
    done <"$STUB/../needed"
    [ -z "$failed" ] || { echo "rt: FAILED: $failed"; echo "1 passed, 1 failed"; exit 1; }
    mkdir -p crates/cli_stack/out
    { echo '#!/usr/bin/env bash'; echo "$program"; } >crates/cli_stack/out/cli_stack
    hold_at program
    chmod +x crates/cli_stack/out/cli_stack
    echo "1 passed, 0 failed"
}

if [ "$1" = version ]; then
    echo "rattle-kit-13f logic 0123456789abcdef"
    exit
fi
echo "$*" >>"$STUB/calls"
mkdir -p "$STUB/proved"
case "$1" in
try) play_try "${@:2}" ;;
ci) play_ci ;;
esac
