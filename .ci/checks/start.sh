#!/usr/bin/env bash
# What the script `stack` says and does until the program is built, in copies of this repository without anything built, with a kit that is played
# (.ci/tools/stub_kit.sh): so it takes no proof.
set -u
top=$(cd "$(dirname "${BASH_SOURCE[0]}")/../.." && pwd)
folder=$(mktemp -d) || exit 1
trap 'rm -rf "$folder"' EXIT
copy=$folder/copy
caller=$folder/caller
export STUB=$folder/stub TMPDIR=$folder/tmp
unset RATTLE_KIT STACK_TRIAL STACK_PROVE STACK_EXPLAIN
mkdir -p "$copy" "$folder/kit/bin" "$folder/empty"
(cd "$top" && git ls-files -z stack guide docs/program/errors.md HANDLES crates.txt crates examples conformance/run conformance/rows.py conformance/words.rows | xargs -0 cp --parents -t "$copy") || exit 1
cp "$top/.ci/tools/stub_kit.sh" "$folder/kit/bin/rt"
bare_path=$(tr : '\n' <<<"$PATH" | while read -r one; do [ -x "$one/rt" ] || echo "$one"; done | paste -sd :)
# The crates of the program, as the kit finds them: each behind those that it stands on.
python3 - "$copy/crates.txt" >"$folder/needed" <<'END'
import sys

lines = (line.split("#")[0] for line in open(sys.argv[1]))
below = {name: words.split() for name, _, words in (line.partition(":") for line in lines if line.strip())}
taken = {"cli_stack"}
for name in reversed(below):
    taken |= set(below[name]) if name in taken else set()
print(*(name for name in below if name in taken), sep="\n")
END
crates=$(wc -l <"$folder/needed")
failed=0

says() {
    echo "start, $theme: $1"
    failed=1
}

# begins THEME [BUILT]: a copy in which nothing is built, or else what the last theme built, and a caller's folder with three files.
begins() {
    theme=$1
    rm -rf "$STUB" "$caller" "$TMPDIR"
    [ "${2-}" = built ] || rm -rf "$copy"/crates/*/out
    mkdir -p "$STUB" "$caller/below" "$TMPDIR"
    echo source >"$caller/a.gypsy"
    echo values >"$caller/below/a.values"
    echo number >"$caller/100"
    find "$caller" -type f -exec cksum {} + | sort >"$folder/before"
}

# starts WORD..: the script on these words in the caller's folder. It leaves its output in the files `out` and `err`, and its status in `status`.
starts() {
    (cd "$caller" && PATH=$folder/kit/bin:$PATH exec "$copy/stack" "$@") >"$folder/out" 2>"$folder/err" </dev/null
    status=$?
}

# ends STATUS OUT [STORED]: so the script ended and so it printed; the caller's files are as before but for the one that the trial stored, and no
# temporary file is left.
ends() {
    [ "$status" = "$1" ] || says "status $status, wanted $1"
    [ "$(<"$folder/out")" = "$2" ] || says "printed $(<"$folder/out"), wanted $2"
    if [ -n "${3-}" ]; then
        [ "$(cat "$caller/$3")" = "stored by the trial" ] || says "$3 isn't stored"
        rm -f "${caller:?}/$3"
    fi
    find "$caller" -type f -exec cksum {} + | sort | cmp -s - "$folder/before" || says "the caller's files were changed"
    [ -z "$(ls -A "$TMPDIR")" ] || says "temporary files are left: $(ls -A "$TMPDIR")"
}

# errs TEXT: what was said on standard error is this. Runs of digits before "seconds" and "min" may differ.
errs() {
    local said
    said=$(sed -E 's/[0-9]+ (seconds|min)/N \1/g; s/[0-9]+ minutes/N minutes/' "$folder/err")
    said=${said//"$copy/stack"/SELF}
    [ "$said" = "$1" ] || { says "the messages differ, < is wanted:"; diff <(echo "$1") <(echo "$said"); }
}

# calls LINE..: the kit was called so, and not otherwise.
calls() {
    local called
    called=$(sed -E 's/--jobs [0-9]+/--jobs N/; s/=[^ ]*/=FILE/g; s:/tmp\.[^/]*/stored:/ROOM/stored:' "$STUB/calls" 2>/dev/null)
    [ "$called" = "$(printf '%s\n' "$@")" ] || says "the kit was called otherwise:"$'\n'"$called"
}

# handed NAME TEXT: the trial had a file of this name and content.
handed() { [ "$(cat "$STUB/handed/$1" 2>&1)" = "$2" ] || says "handed in as $1: $(cat "$STUB/handed/$1" 2>&1), wanted $2"; }

# proves [CRATE]: what the proof says, where all crates are proved but this one.
proves() {
    echo "stack: proves the $crates crates of the program with rattle-kit-13f logic 0123456789abcdef. README.md says how long this takes. Where it is stopped, what was proved is kept, and the next proof goes on from there"
    grep -vx "${1-}" "$folder/needed" | while read -r crate; do
        left=$((${left:-$crates} - 1))
        echo "stack: $crate is proved, $left of $crates are left, N min so far"
    done
}

proof=$(proves)
compiled="stack: all $crates are proved, and the program is built after N minutes"
tried="stack: the program isn't built yet, or was changed since. This is a trial, which takes a minute or two: the program runs unproved, on copies of the files"
unproved="stack: this was a trial, after N seconds: nothing of it is proved. SELF prove proves and builds the program, once, and then a run takes no time"
proof_calls=(ci)

begins "without words, before the program is built"
starts
ends 1 usage
errs "stack: the program isn't built yet, or was changed since. Words are tried without a proof, as these in this script's folder:
stack:     SELF go examples/first/seven.gypsy examples/first/nine.values 100 100 1000000 seven.image
stack: and this proves and builds it:
stack:     SELF prove"
calls ""

begins "without a kit"
for kit in "$folder/empty" "$folder/nowhere"; do
    (cd "$caller" && PATH=$bare_path RATTLE_KIT=$kit "$copy/stack" check a.gypsy) >"$folder/out" 2>"$folder/err"
    status=$?
    ends 70 ""
    errs "stack: the kit isn't there, so nothing is tried and nothing is proved. Wanted is rattle-kit-13f, or rattle-kit-13b
stack: its command rt, which needs Python 3, is looked for on the PATH, and then in $kit/bin (the folder RATTLE_KIT, or else /opt/rattle)"
    [ -z "$(find "$copy/crates" -name out)" ] || says "something was built"
done

# The gate ends at once, and not after its checks.
for kit in "$folder/empty" "$folder/nowhere"; do
    (cd "$caller" && PATH=$bare_path:$kit timeout 20 "$top/.ci/run") >"$folder/out" 2>"$folder/err" </dev/null
    status=$?
    ends 70 ""
    [ "$(<"$folder/err")" = "gate: the kit isn't there, so nothing is proved. Wanted is rattle-kit-13f, or rattle-kit-13b, with its command rt on the PATH; it needs Python 3" ] || says "the gate said $(<"$folder/err")"
done

# Help needs neither the program nor the kit, and words that fit no command are no reason to prove anything.
begins "help, before the program is built"
for words in help --help "help go"; do
    # shellcheck disable=SC2086
    (cd "$caller" && PATH=$bare_path RATTLE_KIT=$folder/empty "$copy/stack" $words) >"$folder/out" 2>"$folder/err" </dev/null
    status=$?
    ends 0 "$(<"$folder/out")"
    grep -q "check SRC\|go SRC" "$folder/out" || says "no help on $words: $(<"$folder/err")"
done
for words in "chekc a.gypsy" "check" ""; do
    # shellcheck disable=SC2086
    (cd "$caller" && STACK_EXPLAIN=1 PATH=$bare_path RATTLE_KIT=$folder/empty "$copy/stack" $words) >"$folder/out" 2>"$folder/err" </dev/null
    status=$?
    ends 1 usage
    grep -q "check SRC\|go SRC" "$folder/err" || says "no help on $words: $(<"$folder/err")"
    [ -z "$(find "$copy/crates" -name out)" ] || says "something was built"
done
# The same where nobody reads what is told.
for words in "chekc a.gypsy" "check" "go a.gypsy below/a.values 0 7 28 a.image"; do
    # shellcheck disable=SC2086
    starts $words
    ends 1 usage
    errs ""
done
calls ""

begins "with the kit of RATTLE_KIT, and without a trial"
(cd "$caller" && STACK_TRIAL=0 PATH=$bare_path RATTLE_KIT=$folder/kit "$copy/stack" check a.gypsy) >"$folder/out" 2>"$folder/err"
status=$?
ends 7 "printed by the program: check a.gypsy"
errs "$proof"$'\n'"$compiled, and runs"
calls "${proof_calls[@]}"

begins "the words that prove"
starts prove
ends 0 ""
errs "$proof"$'\n'"$compiled"
calls "${proof_calls[@]}"
starts prove
ends 0 ""
errs ""
STACK_EXPLAIN=1 starts prove
ends 0 ""
errs "stack: the program is proved and built: SELF --version tells how"
calls "${proof_calls[@]}"
starts --version
ends 0 "$(<"$folder/out")"
for line in "commit " "kit rattle-kit-13f" "logic 0123456789abcdef" "proved on 20" "crates $crates" "sha256 "; do
    grep -q "^$line" "$folder/out" || says "the version has no line $line: $(<"$folder/out")"
done
echo "# changed" >>"$copy/crates/cli_stack/out/cli_stack"
starts --version
[ "$status" = 70 ] || says "status $status for another program"
sed -i '$ d' "$copy/crates/cli_stack/out/cli_stack"

begins "what is built" built
starts check a.gypsy
ends 7 "printed by the program: check a.gypsy"
errs ""
starts
ends 1 usage
errs ""
calls ""

STACK_EXPLAIN=1 starts check a.gypsy
ends 7 "printed by the program: check a.gypsy"
errs ""
starts help
ends 0 "$(<"$folder/out")"
grep -q "check SRC" "$folder/out" || says "no help"
STACK_EXPLAIN=1 starts
ends 1 usage
grep -q "check SRC" "$folder/err" || says "no help"
calls ""

# unbuilt WHY: the script says that a source was changed, and after that nothing is.
unbuilt() {
    starts
    ends 1 usage
    grep -q "isn't built yet, or was changed since" "$folder/err" || says "$1 isn't noticed"
}

begins "what has an old time, is new or is gone"
starts prove
changed=$copy/crates/stack_text/src/lib.rt
cp -p "$changed" "$folder/saved"
echo "// changed" >>"$changed"
touch -r "$folder/saved" "$changed"
unbuilt "a change with an old time"
cp -p "$folder/saved" "$changed"
touch -d 2020-01-01 "$copy/crates/stack_text/src/new.rt"
unbuilt "a new source with an old time"
rm "$copy/crates/stack_text/src/new.rt"
mv "$copy/crates/fm_turns" "$folder/gone"
unbuilt "a crate that is gone"
mv "$folder/gone" "$copy/crates/fm_turns"
starts check a.gypsy
ends 7 "printed by the program: check a.gypsy"
errs ""
calls ci

# What the gate built is newer than the sources, and no list of them is there, or an old one.
begins "what the gate built" built
rm "$copy/crates/cli_stack/out/cli_stack.proved" "$copy/crates/cli_stack/out/cli_stack.sources"
for _ in none old; do
    touch "$changed"
    touch "$copy/crates/cli_stack/out/cli_stack"
    starts prove
    ends 0 ""
    starts check a.gypsy
    ends 7 "printed by the program: check a.gypsy"
done
calls ""

begins "what was changed since" built
touch "$copy/crates/stack_text/src/lib.rt"
starts
ends 1 usage
calls ""
starts check a.gypsy
ends 5 "printed by the trial: check a.gypsy"
calls "try --data word-1.file=FILE -- check word-1.file"
starts --version
ends 0 "$(<"$folder/out")"
grep -q "isn't built yet, or was changed since" "$folder/out" || says "the version of what was changed: $(<"$folder/out")"

begins "a trial"
starts go a.gypsy below/a.values 100 7 28 "$caller/below/a.image"
ends 5 "printed by the trial: go a.gypsy below/a.values 100 7 28 $caller/below/a.image" below/a.image
errs "$tried
$unproved"
calls "try --data word-1.file=FILE --data word-2.file=FILE --data 100=FILE -- go word-1.file word-2.file 100 7 28 $TMPDIR/ROOM/stored"
handed word-1.file source
handed word-2.file values
handed 100 number
starts build a.gypsy 7 3 none/a.image
ends 5 "printed by the trial: build a.gypsy 7 3 none/a.image"
# As root any folder can be written to; a file that can't be written is a folder's name here.
starts build a.gypsy 7 3 /dev/full
ends 10 "shelf fault /dev/full"

# With a linker in the kit the trial's program is kept, and serves until a source changes.
begins "a trial whose program is kept"
unproved_kept="stack: unproved: this is the program that a trial built. SELF prove proves and builds it"
mkdir -p "$folder/kit/toolchain/bin"
touch "$folder/kit/bin/rtlib.py"
cat >"$folder/kit/toolchain/bin/ld.lld" <<'END'
#!/bin/sh
printf '%s\n' '#!/bin/sh' 'echo "printed by what is kept: $*"' 'exit 7' >program
chmod +x program
END
chmod +x "$folder/kit/toolchain/bin/ld.lld"
starts check a.gypsy
ends 5 "printed by the trial: check a.gypsy"
errs "$tried
$unproved
stack: what was built for it is kept: until a source changes, commands run that at once, unproved"
starts check a.gypsy
ends 7 "printed by what is kept: check a.gypsy"
errs "$unproved_kept"
starts listing a.gypsy 7 3
ends 7 "printed by what is kept: mini s lowered"
errs "$unproved_kept"
calls "try --data word-1.file=FILE -- check word-1.file"
# What a script of this one's calls says it no second time.
STACK_TRIED=1 starts check a.gypsy
ends 7 "printed by what is kept: check a.gypsy"
errs ""
starts test rows
[ "$status" = 1 ] || says "status $status of the rows"
grep -q "^the unproved program that a trial built: 0 passed, [1-9][0-9]* failed, in [0-9]* seconds\$" "$folder/out" || says "of the rows it printed $(tail -n 3 "$folder/out")"
[ "$(head -n 1 "$folder/err")" = "${unproved_kept/SELF/"$copy/stack"}" ] || says "of the rows it said $(<"$folder/err")"
(cd "$caller" && PATH=$bare_path RATTLE_KIT=$folder/empty "$copy/stack" check a.gypsy) >"$folder/out" 2>"$folder/err" </dev/null
status=$?
ends 7 "printed by what is kept: check a.gypsy"
echo "// changed" >>"$copy/crates/stack_text/src/lib.rt"
starts listing a.gypsy 7 3
ends 7 "printed by what is kept: mini s lowered"
errs "$tried
$unproved_kept"
calls "try --data word-1.file=FILE -- check word-1.file" "try -- usage"
sed -i '$ d' "$copy/crates/stack_text/src/lib.rt"
starts check a.gypsy
ends 5 "printed by the trial: check a.gypsy"
STACK_PROVE=1 starts check a.gypsy
ends 7 "printed by the program: check a.gypsy"
starts check a.gypsy
ends 7 "printed by the program: check a.gypsy"
errs ""
rm -r "$folder/kit/toolchain" "$folder/kit/bin/rtlib.py"

# Without one these words want the proof.
begins "a page before the proof"
starts listing a.gypsy 7 3
ends 70 ""
errs "$tried
stack: listing asks the proved program, which isn't built yet, or was changed since. SELF prove proves and builds it"

begins "a trial, and then the proof"
STACK_PROVE=1 starts check a.gypsy
ends 7 "printed by the program: check a.gypsy"
errs "$tried
trial: printed by the trial: check a.gypsy
stack: the trial ended with status 5 after N seconds. It proves nothing
$proof
$compiled, and runs"
calls "try --data word-1.file=FILE -- check word-1.file" "${proof_calls[@]}"

# Names that lead out of the folder, that are the kit's own, that aren't there, whose folder isn't there, or that are a folder's.
begins "the names that a trial gets"
starts turns 10 28 7 3 ../copy/crates.txt stdout src/main.rt none/a.image below a.gypsy
ends 5 "printed by the trial: turns 10 28 7 3 ../copy/crates.txt stdout src/main.rt none/a.image below a.gypsy"
calls "try --data word-5.file=FILE --data word-9.file/nothing=FILE --data word-10.file=FILE -- turns 10 28 7 3 word-5.file word-6.file nowhere/word-7.file nowhere/word-8.file word-9.file word-10.file"
handed word-5.file "$(<"$copy/crates.txt")"

begins "a trial without an answer"
touch "$STUB/silent"
starts check a.gypsy
ends 70 ""
errs "$tried
stack: the trial found no answer: run=none proved=no"
calls "try --data word-1.file=FILE -- check word-1.file"
STACK_PROVE=1 starts check a.gypsy
ends 7 "printed by the program: check a.gypsy"

begins "a trial that meets a limit of the kit's"
touch "$STUB/endless"
starts check a.gypsy
ends 70 ""
errs "$tried
stack: the trial found no answer: checked: no-answer: the program did not end within the time limit
stack: this is a limit of the kit's trial: no run of one takes longer. A proved program has none: SELF prove"

begins "a crate that isn't proved"
echo fm_show >"$STUB/fails"
STACK_PROVE=1 starts check a.gypsy
ends 70 ""
errs "$tried
trial: printed by the trial: check a.gypsy
stack: the trial ended with status 5 after N seconds. It proves nothing
$(proves fm_show)
stack: not proved: fm_show. The end of the log:
$(seq -f 'line %g of fm_show' 11 30)"
calls "try --data word-1.file=FILE -- check word-1.file" ci
rm "$STUB/fails" "$STUB/calls"
STACK_PROVE=1 starts check a.gypsy
ends 7 "printed by the program: check a.gypsy"

# Starts a program in a process group of its own, in which no signal is ignored.
in_a_group='
import os, signal, sys
os.setpgid(0, 0)
for number in signal.SIGINT, signal.SIGTERM, signal.SIGHUP:
    signal.signal(number, signal.SIG_DFL)
os.execv(sys.argv[1], sys.argv[1:])'

# stops SIGNAL WHOM WHEN: starts, and sends the signal once the kit waits: to the script alone, or to its group, as Ctrl-C does.
stops() {
    local process held
    echo "$3" >"$STUB/holds"
    (cd "$caller" && STACK_PROVE=1 PATH=$folder/kit/bin:$PATH exec python3 -c "$in_a_group" "$copy/stack" check a.gypsy) >"$folder/out" 2>"$folder/err" </dev/null &
    process=$!
    for _ in $(seq 300); do
        [ ! -s "$STUB/held" ] || break
        sleep 0.2
    done
    # So that the script looks at it once more.
    sleep 1
    case $2 in
    group) kill "-$1" -- "-$process" ;;
    alone) kill "-$1" "$process" ;;
    esac
    wait "$process"
    status=$?
    while read -r held; do
        ! kill -0 "$held" 2>/dev/null || says "a process of the kit still runs: $(ps -o stat,args -p "$held")"
    done <"$STUB/held"
    rm -f "$STUB/holds" "$STUB/held"
}

begins "stopped by Ctrl-C in the proof, and started again"
stops INT group fm_show
ends 130 ""
[ "$(tail -n 1 "$folder/err")" = "stack: stopped: what was proved is kept, and the next proof goes on from there" ] || says "said $(tail -n 1 "$folder/err")"
grep -q "stack: fm_loader is proved" "$folder/err" || says "nothing was proved before"
! grep -q "stack: fm_show is proved" "$folder/err" || says "said to be proved: the crate that the kit was at"
rm "$STUB/calls"
starts prove
ends 0 ""
errs "$proof
$compiled"

begins "two builds at once"
echo fm_show >"$STUB/holds"
starts_alone() {
    (cd "$caller" && PATH=$folder/kit/bin:$PATH exec "$copy/stack" prove) >/dev/null 2>"$folder/$1" </dev/null
    echo "$?" >"$folder/$1.status"
}
waits_for() {
    for _ in $(seq 300); do
        ! "$@" 2>/dev/null || return
        sleep 0.2
    done
    says "this didn't come: $*"
}
starts_alone first &
waits_for [ -s "$STUB/held" ]
starts_alone second &
waits_for grep -q "another build of this checkout runs" "$folder/second"
rm "$STUB/holds"
kill "$(sed -n 2p "$STUB/held")"
wait
rm "$STUB/held"
for one in first second; do
    [ "$(<"$folder/$one.status")" = 0 ] || says "the $one build ended with status $(<"$folder/$one.status")"
done
[ "$(head -n 1 "$folder/second")" = "stack: another build of this checkout runs. This one waits for it, and goes on where that one ends" ] || says "the second said $(head -n 1 "$folder/second")"
calls ci ci

begins "ended in the trial"
stops TERM alone try
ends 143 ""
[ "$(<"$folder/err")" = "$tried
stack: stopped: what was proved is kept, and the next proof goes on from there" ] || says "said $(<"$folder/err")"

begins "ended while the program is compiled"
stops HUP alone program
ends 129 ""
[ ! -e "$copy/crates/cli_stack/out/cli_stack" ] || says "there is a part of a program"
rm "$STUB/calls"
STACK_TRIAL=0 starts check a.gypsy
ends 7 "printed by the program: check a.gypsy"
calls "${proof_calls[@]}"

# On a terminal the progress is one line, which is written anew.
begins "on a terminal"
spawn='import os, pty, sys; sys.exit(os.WEXITSTATUS(pty.spawn(sys.argv[1:])))'
(cd "$caller" && STACK_PROVE=1 TERM=xterm PATH=$folder/kit/bin:$PATH python3 -c "$spawn" bash -c '"$0" check a.gypsy >"$1"' "$copy/stack" "$folder/out" </dev/null) >"$folder/err"
status=$?
ends 7 "printed by the program: check a.gypsy"
! grep -q " is proved, " "$folder/err" || says "each crate has a line"
grep -q $'\r\e\\[Kstack: [0-9]* of '"$crates crates are proved, [0-9]* are left, 0 min so far" "$folder/err" || says "no line is written anew"
[ "$(wc -l <"$folder/err")" = 5 ] || says "$(wc -l <"$folder/err") lines, wanted 5"

[ "$failed" = 0 ] && echo "start: ok"
exit "$failed"
