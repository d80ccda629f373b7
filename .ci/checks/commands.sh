#!/usr/bin/env bash
# The commands that README.md and docs/learn/walk.md, cli.md, debug.md, space.md and turns.md show, run in a folder of their own: what they print, their
# statuses, and the images' sizes. What documents show as transcripts is run by examples.sh.
set -u
export STACK_EXPLAIN=0
top=$(cd "$(dirname "${BASH_SOURCE[0]}")/../.." && pwd)
folder=$(mktemp -d) || exit 1
trap 'rm -rf "$folder"' EXIT
"$top/stack" prove || exit 1
cp -r "$top/examples" "$folder/"
cd "$folder" || exit 1
failed=0

# wants STATUS TEXT WORD..: the program on these words ends so, and prints the text.
wants() {
    local wanted_status=$1 wanted_text=$2 printed status
    shift 2
    printed=$("$top/stack" "$@")
    status=$?
    if [ "$status" != "$wanted_status" ] || [ "$printed" != "$wanted_text" ]; then
        echo "stack $*: status $status, wanted $wanted_status; printed:"
        echo "$printed"
        failed=1
    fi
}

# tells TEXT WORD..: the program ends well on these words, and prints the text after its first line.
tells() {
    local wanted_text=$1 printed status
    shift
    printed=$("$top/stack" "$@")
    status=$?
    if [ "$status" != 0 ] || [ "${printed#*$'\n'}" != "$wanted_text" ]; then
        echo "stack $*: status $status, wanted 0; printed:"
        echo "$printed"
        failed=1
    fi
}

# holds FILE BYTES: the file has so many bytes.
holds() {
    local bytes
    bytes=$(wc -c <"$1")
    [ "$bytes" = "$2" ] || { echo "$1 has $bytes bytes, wanted $2"; failed=1; }
}

# misses FILE: there is no such file.
misses() {
    [ ! -e "$1" ] || { echo "$1 was stored"; failed=1; }
}

# A sum: README.md.
wants 0 $'finished 1276\ncondition normal\na = (3 1 4 1 5)\nsum = 14' try examples/arrays/sum.gypsy 'a=(3 1 4 1 5)'

# One assignment: docs/learn/walk.md, the first walk.
seven=$'finished 28\ncondition normal\nx = 7'
wants 0 "$seven" go examples/first/seven.gypsy examples/first/nine.values 100 100 1000000 seven.image
holds seven.image 3994
wants 0 $'stepped 23\nin main at 14\ncondition normal\nx = 7' debug fm9001 examples/first/seven.gypsy examples/first/nine.values 100 100 examples/sessions/up.script
wants 0 "$seven" go examples/first/seven.gypsy examples/first/nine.values 7 3 28 seven.image
holds seven.image 3622
wants 5 "unfinished 27" run seven.image examples/first/nine.values 27
wants 0 $'steps 2\ncounted 28\ncondition normal\nx = 7' mean examples/first/seven.gypsy examples/first/nine.values 7 3 2
wants 0 $'finished 28\ncondition normal\nx = 5\ny = -3' go examples/first/two.gypsy examples/first/two.values 100 100 1000000 two.image

# A loop, a call and a handled condition: the second walk.
counted=$'condition normal\nx = 2000000000'
wants 0 "ok" check examples/conditions/count.gypsy
wants 0 $'finished 226\n'"$counted" go examples/conditions/count.gypsy examples/conditions/count.values 13 5 226 count.image
holds count.image 4283
wants 5 "unfinished 225" run count.image examples/conditions/count.values 225
wants 0 $'steps 12\ncounted 226\n'"$counted" mean examples/conditions/count.gypsy examples/conditions/count.values 13 5 12
wants 5 "unfinished 11" mean examples/conditions/count.gypsy examples/conditions/count.values 13 5 11
wants 0 $'steps 3\ncounted 31\ncondition spaceerror\nx = 0' mean examples/conditions/count.gypsy examples/conditions/count.values 12 5 12
wants 12 "size control 3" mean examples/conditions/count.gypsy examples/conditions/count.values 2 5 12
wants 0 "built 973" build examples/conditions/count.gypsy 13 5 built.image
cmp -s count.image built.image || { echo "go and build store different images"; failed=1; }
wants 0 "written count.piton" pit examples/conditions/count.gypsy 13 5 count.piton
wants 0 $'halted 85\ncounted 226\nc-c (nat 2)\nstack (int 2000000000)' prun count.piton 85
wants 0 "built 973" pbuild count.piton linked.image
wants 0 $'source 144\nfinished 112\ncondition normal\nx = 748' big 1 1
wants 0 $'steps 3\ncounted 20\ncondition spaceerror\nx = 0' mean examples/conditions/count.gypsy examples/conditions/count.values 13 4 12

# The moment of the second walk, at each level.
zeros() { for r in $(seq "$1" "$2"); do echo "r$r 00000000"; done; }
moment() { echo "debug $1 examples/conditions/count.gypsy examples/conditions/count.values 13 5 examples/sessions/moment-$1.script"; }
wants 0 $'stepped 8\nat 104 depth 2\ncondition routineerror\ny = 2000000000\nstep = 2000000000' $(moment gypsy)
wants 0 $'stepped 70\nat up 8 frames 2\nstep = (nat 1)\ny = (nat 0)\nstack (int 2000000000) (int 2000000000)' $(moment piton)
wants 0 $'stepped 199\ncount 199\nr0 000003c1\nr1 000003c1\nr2 000003cb\nr3 00000000\nr4 ee6b2800\n'"$(zeros 5 14)"$'\nr15 00000084\nflags ---z' $(moment fm9001)

# A call that has no room: the third walk, and docs/program/debug.md.
no_room=$'condition spaceerror\nn = 0'
wants 0 $'finished 423\ncondition normal\nn = 0' go examples/calls/down.gypsy examples/calls/down.values 24 10 1000 down.image
wants 0 $'finished 350\n'"$no_room" go examples/calls/down.gypsy examples/calls/down.values 23 10 1000 down.image
wants 0 $'steps 12\ncounted 350\n'"$no_room" mean examples/calls/down.gypsy examples/calls/down.values 23 10 12
wants 0 "written down.piton" pit examples/calls/down.gypsy 23 10 down.piton
wants 0 $'attached last\nstepped 8\nlast 48 134 164 183 213 134 164 183\ntop\nstepped 1\ntop' debug gypsy examples/calls/down.gypsy examples/calls/down.values 23 10 examples/sessions/last.script
wants 0 $'finished 356\ncondition normal\nn = 0' go examples/conditions/caught.gypsy examples/calls/down.values 23 10 1000 down.image

# Quick images, and a source without one: docs/program/cli.md.
wants 0 "built 38" quick examples/counting/upto.gypsy 100 100 upto.image
wants 0 $'finished 63\ncondition normal\nn = 5\ni = 5' run upto.image examples/counting/upto.values 63
wants 5 "unfinished 62" run upto.image examples/counting/upto.values 62
wants 0 "built 27" quick examples/conditions/count.gypsy 13 5 lined.image
wants 0 "built 1251" build examples/calls/down.gypsy 100 100 deep.image
wants 0 "built 1251" quick examples/calls/down.gypsy 100 100 same.image
cmp -s deep.image same.image || { echo "quick stores another image than build of calls that nest too deep"; failed=1; }

# Piton by hand: docs/program/cli.md.
wants 0 "ok" pcheck examples/piton/less.piton
wants 0 $'halted 4\ncounted 7\nstack (nat 2)' prun examples/piton/less.piton 4
wants 5 "unfinished 3" prun examples/piton/less.piton 3
wants 0 "built 18" pbuild examples/piton/less.piton less.image
holds less.image 172
wants 0 "finished 7" run less.image examples/piton/none.values 7

# An assembly text and back, and certificates: docs/program/cli.md.
wants 0 "built 17" asm examples/assembly/sum.asm sum.image
wants 0 "finished 23" run sum.image examples/piton/none.values 23
wants 5 "unfinished 22" run sum.image examples/piton/none.values 22
wants 0 "written words.asm" unasm sum.image words.asm
wants 0 "built 17" asm words.asm again.image
cmp -s sum.image again.image || { echo "the printed text has another image"; failed=1; }
wants 16 "not plain" unasm seven.image none.asm
misses none.asm
wants 0 $'control 13\ntemporary 5' need examples/conditions/count.gypsy count.cert
wants 0 "yes" cert examples/conditions/count.gypsy count.cert 13 5
wants 0 "no" cert examples/conditions/count.gypsy count.cert 12 5
wants 17 "recursive p" need examples/calls/down.gypsy none.cert
misses none.cert

# A program of the infix language: docs/program/cli.md.
wants 0 "written squares.gypsy" mini examples/infix/squares.mini squares.gypsy
wants 0 "ok" check squares.gypsy
tells $'condition normal\nx = 0\ns = 14' go squares.gypsy examples/infix/squares.values 300 300 1000000 squares.image
wants 0 "written gcd.gypsy" mini examples/infix/gcd.mini gcd.gypsy
tells $'condition normal\nx = 6\ny = 6' go gcd.gypsy examples/infix/gcd.values 300 300 1000000 gcd.image
printf 'int x; x := x + y;' >unknown.mini
wants 2 "refused Y6 at 16" mini unknown.mini none.gypsy
misses none.gypsy

# A session at each level: docs/program/debug.md.
session() { echo "debug $1 examples/first/seven.gypsy examples/first/nine.values 7 3 examples/sessions/steps.script"; }
attached=$'attached last\nattached peak'
read_up=$'condition normal\nx = 7'
wants 0 "$attached"$'\nstepped 2 ended\nended\n'"$read_up"$'\nstepped 0 ended\ntop\nlast 48 14\npeak 1' $(session gypsy)
wants 0 "$attached"$'\nstepped 5\nat mg-simple-constant-assignment 2 frames 2\nd = (nat 0)\nv = (int 7)\nstack (int 9) (int 7) (nat 0)\nstepped 4 ended\n'"$read_up"$'\nlast 1 2 0 1 2 3 3 6\npeak 2' $(session piton)
wants 0 "$attached"$'\nstepped 5\ncount 5\nr0 0000034b\nr1 0000034a\nr2 0000034e\nr3 0000034b\n'"$(zeros 4 14)"$'\nr15 0000000c\nflags ----\nstepped 23 ended\n'"$read_up"$'\nlast 68 70 71 14 21 22 24 25\npeak 3' $(session fm9001)
printf 'attach count\nstep 28\ndetach count\ndetach count' >twice.script
wants 13 $'attached count\nstepped 28 ended\ncount 28\nscript D5 at line 4' debug fm9001 examples/first/seven.gypsy examples/first/nine.values 7 3 twice.script

# Two programs by turns: docs/program/turns.md.
by_turns=$'task 1 round 3\nfinished 28\ncondition normal\nx = 7\ntask 2 round 43\nfinished 423\ncondition normal\nn = 0'
wants 0 "$by_turns" turns 10 1000 24 10 examples/first/seven.gypsy examples/first/nine.values examples/calls/down.gypsy examples/calls/down.values

# Refusals, which store nothing.
printf '(program main (proc main ((x integer)) () () () (mg-simple-constant-assignment y 7)))' >unknown.gypsy
wants 2 "refused S14 at 79" go unknown.gypsy examples/piton/none.values 7 3 28 none.image
wants 9 "missing nowhere.gypsy" go nowhere.gypsy examples/first/nine.values 7 3 28 none.image
wants 12 "size control 7" go examples/first/seven.gypsy examples/first/nine.values 6 3 28 none.image
wants 9 "missing nowhere.script" debug gypsy examples/first/seven.gypsy examples/first/nine.values 7 3 nowhere.script
wants 1 "usage" go
misses none.image
[ "$failed" = 0 ] && echo "commands: ok"
exit "$failed"
