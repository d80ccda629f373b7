# A part of the script `stack`: what a person gets beside the program's own output, all of it on standard error. A terminal there means a
# person; STACK_EXPLAIN=1 asks for the same elsewhere, and STACK_EXPLAIN=0 for none of it.

# Sets `python`, where there is one.
find_python() {
    for python in /usr/bin/python3 "$(type -P python3)"; do
        [ ! -x "$python" ] || return 0
    done
    say "this needs Python 3, which isn't there. docs/program/cli.md and docs/program/errors.md have the same"
    return 70
}

# Runs one of the scripts beside this file.
guide() {
    local python
    find_python && "$python" -S -E -s -B "$here/guide/$1.py" "${@:2}"
}

# Becomes a script in Python.
become() {
    find_python || exit
    exec "$python" -S -E -s -B "$@"
}

# What the program does on words that fit no command.
print_usage() {
    [ -z "$built" ] || { "$program" "$@"; return; }
    echo usage || return 11
    return 1
}

# Gives the help that was asked for, which is no command of the program: so it is the output.
give_help() { become "$here/guide/help.py" help "$@"; }

# Ends on words that fit no command as the program does, since they are no reason to try or prove anything, and tells a person what is wrong.
judge_words() {
    local status
    [ $# -gt 0 ] || return 0
    if is_person; then guide help words "$@"; else guide help words "$@" 2>/dev/null; fi
    status=$?
    [ "$status" = 64 ] || return 0
    print_usage "$@"
    exit $?
}

# What the words of a command are, one a line: `reads` a file, `stores` one, or neither. Nothing for words that are no row of commands.txt.
roles_of() {
    awk -v RS= -v FS='\n' -v name="${1-}" -v count=$# '
        { split($1, word, " ") }
        word[1] == "file" { is_file[word[2]] = 1 }
        word[1] == "command" && word[2] == name && !/\nwaits / {
            size = split($1, row, " ")
            for (i = 2; i <= NF; i++) if ($i ~ "^stores ") stored = substr($i, 8)
        }
        END { if (size == count + 1) for (i = 3; i <= size; i++) print row[i] == stored ? "stores" : row[i] in is_file ? "reads" : "neither" }
    ' "$here/guide/commands.txt"
}

# What the command on these words reads and stores: sets `output`, which is empty where it stores nothing, with its number among the words, and
# `inputs`.
find_files() {
    local role number=0
    output= output_at= inputs=()
    case ${1-} in
    turns) inputs=("${@:6}"); return ;;
    page) [ $# -lt 7 ] || { output=$7 output_at=6 inputs=("$2" "$3"); }; return ;;
    pack) [ $# -lt 2 ] || { output=$2 output_at=1; }; return ;;
    esac
    while IFS= read -r role; do
        number=$((number + 1))
        case $role in
        stores) output=${*:number + 1:1} output_at=$number ;;
        reads) [ "$((number + 1))" = $# ] && is_by_lines "$@" || inputs+=("${*:number + 1:1}") ;;
        esac
    done < <(roles_of "$@")
}

# Whether these words ask for a session line by line, over standard input.
is_by_lines() { [[ ${1-} == *debug && ${*: -1} == - ]]; }

# Whether a file begins as what the command stores.
is_stored_by() {
    local head
    head=$(head -c 200 -- "$2" 2>/dev/null | tr -d '\0')
    case $1 in
    pit) [[ $head == "(piton "* ]] ;;
    unasm) [[ $head == ".base "* ]] ;;
    need) [[ $head =~ ^\(\([A-Za-z][^\ \(\)]*\ [0-9]+\ [0-9]+\) ]] ;;
    mini) [[ $head == "(program main"* ]] ;;
    page) [[ $head == "<!doctype html>"* ]] ;;
    pack) [[ $head == $'\x1f\x8b'* ]] ;;
    *) [[ $head == FM91* ]] ;;
    esac
}

# Has standard output wait for whoever reads it, where another program has made a pipe or a terminal that doesn't: what can't be written at once would be
# lost, with status 11. It is opened anew for this script, so the other program keeps what it has made.
wait_for_reader() {
    local key flags=0
    [ -r "/proc/$$/fdinfo/1" ] || return 0
    while read -r key flags; do [ "$key" != flags: ] || break; done <"/proc/$$/fdinfo/1"
    ((8#${flags:-0} & 8#4000)) || return 0
    case $(readlink "/proc/$$/fd/1") in pipe:*) ;; *) [ -t 1 ] || return 0 ;; esac
    { command exec >"/proc/$$/fd/1"; } 2>/dev/null
}

# Whether a command's output is an ordinary file of its own. What is standard output can't be looked at again: in a substitution it is another pipe.
is_own_file() { [ -n "$output" ] && [ -f "$output" ] && [ ! "$output" -ef /dev/stdout ] && [ ! "$output" -ef /dev/stderr ]; }

# Whether the program may read a file once more: an ordinary one, and none that is another one in a pipe.
is_plain_file() { [[ $1 != /dev/* && $1 != /proc/* ]] && [ -f "$1" ]; }

# Ends where the file that a command stores is standard output too, and an ordinary file: what the command prints would be written over what it stores,
# or be lost with the old file.
refuse_own_output() {
    local word
    [ -f /dev/stdout ] || return 0
    for word in "${@:2}"; do
        [ "$word" -ef /dev/stdout ] || continue
        find_files "$@"
        [ "$output" = "$word" ] || continue
        say "$output is to be stored, and is standard output too, a file: what is printed would stand over it. Nothing was started, and no file is changed"
        exit 70
    done
}

# Says that a file would be lost, and asks where somebody can answer.
guard_output() {
    local input reason= answer
    find_files "$@"
    is_own_file && [ -s "$output" ] || return 0
    for input in "${inputs[@]}"; do
        [ ! "$input" -ef "$output" ] || reason="this command reads $output, and then stores its result there: what the file has now is lost"
    done
    [ -n "$reason" ] || is_stored_by "$1" "$output" || reason="$output is there, and was not stored by $1: what it has now is lost"
    [ -n "$reason" ] || return 0
    say "$reason"
    [ -t 0 ] && [ -t 2 ] || return 0
    read -r -p "stack: go on? [y/N] " answer
    [[ $answer == [yY]* ]] || { say "nothing was started, and no file is changed"; exit 130; }
}

# Says what was stored.
tell_stored() {
    case ${2-}:$1 in *:0 | go:3 | go:5 | go:6) ;; *) return 0 ;; esac
    find_files "${@:2}"
    ! is_own_file || say "$output is stored, $(($(wc -c <"$output"))) bytes"
}

# The words of a short run of the same command, with SHORT for its length, what it is counted in, and the length of the whole run: sets `sample`,
# `unit` and `whole`. Without a way to take a sample `sample` is empty. Of `go` it is a run of the image, once that is stored.
find_sample() {
    local file
    unit=instructions whole=0 sample=()
    find_files "$@"
    ! is_by_lines "$@" || return
    # What is no file can be read once, and that is the program's.
    for file in "${inputs[@]}" ${output:+"$output"}; do is_plain_file "$file" || return; done
    case ${1-}:$# in
    run:4) whole=$4 sample=(run "$2" "$3" SHORT) ;;
    go:7) whole=$6 sample=(run "$7" "$3" SHORT) ;;
    turns:*) whole=$3 sample=(turns "$2" SHORT "${@:4}") ;;
    mean:6) unit=steps whole=$6 sample=("${@:1:5}" SHORT) ;;
    prun:3) unit=steps whole=$3 sample=(prun "$2" SHORT) ;;
    debug:7 | pdebug:3 | idebug:4)
        # How far `until` goes isn't known before.
        whole=$(awk '$1 == "until" { exit unknown = 1 } $1 == "step" { sum += $2 } END { printf "%.0f", unknown ? 0 : sum }' "${@: -1}" 2>/dev/null)
        unit=steps
        sample=("${@:1:$# - 1}" /dev/stdin)
        ;;
    esac
    [ "${whole:-0}" -gt 5000000 ] 2>/dev/null || sample=()
}

# Prints how many steps or instructions the program makes in a second, and after how many it was seen not to be at its end, by a short run, and a
# longer one where that takes no time; nothing where a run came to its end, can't be made, or takes more than so many seconds.
take_sample() {
    local short seconds said= TIMEFORMAT=%3R
    [ "${#sample[@]}" -gt 0 ] || return
    for short in 50000 5000000; do
        seconds=$({ time timeout "$1" "$program" "${sample[@]/#SHORT/$short}" <<<"step $short" 2>/dev/null; } 2>&1 | tail -n 2)
        [[ $seconds == "unfinished $short"$'\n'* || $seconds == "stepped $short"$'\n'* ]] || break
        seconds=${seconds##*$'\n'}
        said=$(awk -v short="$short" -v seconds="$seconds" 'BEGIN { printf "%.0f %s", short / (seconds + 0.001), short }')
        [[ $seconds == 0.0* ]] || break
    done
    [ -z "$said" ] || echo "$said"
}

# A number with commas, and of one over a million the millions.
grouped() { sed -E ':a; s/^([0-9]+)([0-9]{3})/\1,\2/; ta' <<<"$1"; }
rough() { [ "$1" -ge 1000000 ] && echo "$(($1 / 1000000)) million" || grouped "$1"; }

# How much of the run is done after so many seconds at this speed: 12.3 %.
share() { awk -v made="$(($1 * $2))" -v whole="$whole" 'BEGIN { share = 100 * made / whole; printf "%.1f %%", (share > 100 ? 100 : share) }'; }

# Sets `speed`, where the short run that was started for it has ended. Of `go` it is tried again, since the image may not be stored yet.
read_speed() {
    [ -n "$sampled" ] && [ -z "$speed" ] && read -r -t 0 -u "$sampled" || return 0
    read -r speed _ <&"$sampled" && return
    exec {sampled}<&-
    sampled=
    [ "$1" != go ] || exec {sampled}< <(sleep 2; take_sample 20)
}

# Says on a terminal how long the program runs, after two seconds, until it prints something, of which nothing is read here. How far it is it doesn't say
# itself: that is reckoned by a short run of the same.
await_output() {
    local pause=0.01 told=1 said drawn= speed= sampled= sample unit whole
    until read -r -t 0; do
        sleep "$pause"
        case $pause in 0.01) pause=0.03 ;; *) pause=0.1 ;; esac
        [ "$SECONDS" -gt "$told" ] || continue
        [ "$told" != 1 ] || { find_sample "$@"; exec {sampled}< <(take_sample 20); }
        told=$SECONDS
        read_speed "$@"
        said="$1 runs, $told seconds so far"
        [ -z "$speed" ] && said+=". Ctrl-C ends it" || said+=": about $(share "$told" "$speed"), $(rough "$speed") $unit a second"
        redraw "$said"
        drawn=$rewind
        # Where no line can be drawn anew, one is enough for half a minute.
        [ -n "$rewind" ] || [ $((told % 30)) != 2 ] || say "$said"
    done
    printf '%s' "$drawn" >&2
}

# Hands on what the program prints, to standard output and to the descriptor `copy`.
hand_on() {
    case ${1-} in
    # A session that is asked line by line waits for whoever types.
    run | go | prun | mean | debug | pdebug | idebug | big | turns) [ ! -t 2 ] || is_by_lines "$@" || await_output "$@" ;;
    esac
    tee "/dev/fd/$copy" 2>/dev/null
}

# Hands on lines with `?` in place of what would move a terminal's cursor or change the order of what it shows: control characters, also those of two
# bytes and single bytes that are no text, and the marks that `say` takes out.
show_plainly() {
    LC_ALL=C sed -uE 's/[\x01-\x08\x0b-\x1f\x7f]/?/g
        s/\xc2[\x80-\x9f]|\xd8\x9c|\xe2\x80[\x8b-\x8f\xa8-\xae]|\xe2\x81[\xa6-\xa9]|\xef\xbb\xbf/?/g
        s/(^|[\x01-\x7f])[\x80-\xbf]+/\1?/g'
}

# Prints a line, which has names of files.
print_line() { if [ -t 1 ]; then printf '%s\n' "$1" | show_plainly; else printf '%s\n' "$1"; fi; }

# Hands on to a terminal what it can show. Elsewhere the output is the program's byte by byte.
hand_on_shown() { if [ -t 1 ]; then hand_on "$@" | show_plainly; else hand_on "$@"; fi; }

# Says how far a run was that was stopped, as far as it can be known from outside, and ends as what was stopped does.
tell_stopped() {
    local sample unit whole speed= short
    trap - INT
    if [ "$SECONDS" -ge 2 ]; then
        find_sample "$@"
        read -r speed short < <(take_sample 3)
        [[ ${1-} == *debug ]] && say "stopped after $SECONDS seconds" ||
            say "stopped after $SECONDS seconds. The program prints at its end alone, so what memory held is not known"
        [ -z "$speed" ] || tell_stored 5 "$@"
        [ -z "$speed" ] || say "about $(grouped $((SECONDS * speed))) of $(grouped "$whole") $unit were made ($(share "$SECONDS" "$speed")), reckoned from a short run: $(grouped "$speed") a second. After $(grouped "$short") it wasn't at its end"
    fi
    kill -INT $$
}

# Whether the program's output can be handed on, and looked at on the way: it is known here whether it can be written, no word means what would be another
# file in a pipe, and there are the commands and the descriptors for it.
can_hand_on() {
    local word
    type -P sed tee tail >/dev/null || return
    [ -t 1 ] || [ -f /dev/stdout ] || [ -p /dev/stdout ] || [ /dev/stdout -ef /dev/null ] || return
    for word in "${@:2}"; do
        case $word in /dev/stdout | /dev/stderr | /dev/fd/[12] | /proc/*/fd/*) return 1 ;; esac
    done
    find_files "$@"
    [ -z "$output" ] || { [ ! "$output" -ef /dev/stdout ] && [ ! "$output" -ef /dev/stderr ]; } || return
    case $(ulimit -n) in [0-9] | [12][0-9]) return 1 ;; esac
}

# Runs the program, and then explains how it ended. The status is the program's: 11 where standard output can't be written, as it is then.
attend_program() {
    local end status out copy
    can_hand_on "$@" || exec "$program" "$@"
    SECONDS=0
    exec {out}>&1
    trap 'tell_stopped "$@"' INT
    end=$(set -o pipefail; "$program" "$@" {out}>&- | { hand_on_shown "$@" {copy}>&1 >&"$out" || exit 11; } | tail -c 4096 | tr -d '\0')
    status=$?
    # Who reads a pipe may stop where he likes.
    [ "$status" = 0 ] || [ "$status" -gt 64 ] || { [ "$status" = 11 ] && [ -p /dev/stdout ]; } || guide explain "$status" "$end" "$@"
    [[ $status != 0 || $end != *" = (#"* ]] || guide texts "$end"
    tell_stored "$status" "$@"
    exit "$status"
}

# Runs a source with values that the words give, or prints these: guide/trying.py. Where nothing is built yet this script is the program.
be_trying() {
    [ -n "$built" ] || [ $# -le 1 ] || [ "$1" != try ] || have_trial
    [ -n "$built" ] || export STACK_EXPLAIN=0 STACK_UNPROVED=1
    [ -n "$built" ] || program=$here/stack
    become "$here/guide/trying.py" "$program" "$@"
}
