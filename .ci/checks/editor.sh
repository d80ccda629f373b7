#!/usr/bin/env bash
# What serves an editor, tried as an editor does: docs/program/editor.md. With the path of a program it is that one which is asked. It may be unproved, as
# crates/cli_stack/out/trial is, which makes a hundredth of the instructions a second: what takes too long for it isn't tried, and that is said.
set -u
program=$(realpath -- "${1-}" 2>/dev/null)
cd "$(dirname "${BASH_SOURCE[0]}")/../.." || exit 1
export PYTHONDONTWRITEBYTECODE=1
folder=$(mktemp -d) || exit 1
trap 'rm -rf "$folder"' EXIT
stack=./stack
if [ -n "$program" ]; then
    # In place of the script, which would prove a program first.
    stack=$folder/stack
    printf '#!/bin/sh\nexec python3 "%s/$1/$2.py" "%s"\n' "$PWD" "$program" >"$stack" && chmod +x "$stack" || exit 1
else
    ./stack prove || exit 1
    program=crates/cli_stack/out/cli_stack
fi
python3 .ci/tools/editor_rows.py "$program" || exit 1
# What is installed, below a folder of this check: twice, since what was there is replaced.
python=$(python3 -c 'import sys; print(sys.executable)')
install() {
    # Without a path no editor is found that would take it.
    env -i PATH=/nowhere HOME="$folder/home" "$python" -B editor/install.py "$@" >"$folder/told" 2>&1
}
for name in vim emacs code kate vim emacs code kate; do
    install "$PWD/stack" "$name" || { echo "editor: $name isn't installed"; exit 1; }
    read -r first <"$folder/told"
    [ -e "$first" ] || { echo "editor: there is no $first"; exit 1; }
done
! grep -rl '@STACK@' "$folder/home" || { echo "editor: the path of the script is missing"; exit 1; }
# A path may have any characters.
install "/a'b\"c/stack" vim && grep -rq "'/a''b\"c/stack'" "$folder/home/.vim" || { echo "editor: a path with quotes is spoilt for Vim"; exit 1; }
install "/a'b\"c/stack" emacs && grep -rqF "\"/a'b\\\"c/stack\"" "$folder/home/.emacs.d" || { echo "editor: a path with quotes is spoilt for Emacs"; exit 1; }
# A list of Kate's that can't be added to stays as it is, and no trace of the script is told.
echo '["mine"]' >"$folder/home/.config/kate/lspclient/settings.json"
! install "$PWD/stack" kate && grep -q '^stack: .*settings.json ' "$folder/told" && grep -qx '\["mine"\]' "$folder/home/.config/kate/lspclient/settings.json" ||
    { echo "editor: over another list of Kate's it is told:"; cat "$folder/told"; exit 1; }
# The extension of VS Code, where there is a Node.js to play that.
wanted="gypsy  begin:keyword mg-integer-add:support x:variable x:variable one:variable routineerror:variable signal:keyword c:variable ; if:comment
gypsy  proc:keyword loop:entity b:variable boolean:storage c:variable character:storage #65:constant no-op:keyword
piton  dl:keyword L1:entity test-int-and-jump:support not-neg:keyword L2:variable push-constant:support int:storage -7:constant
mini  while:keyword not:keyword x1:variable <=:keyword 20:constant y:variable :=:keyword -:keyword y:variable
fm9001  a::entity SUB:support {z}:storage r3:variable r15:variable ; r1:comment
stackvalues  x:variable -7:constant b:variable true:constant
found M9
action Put in mg-integer-add mg-integer-add
found nothing
hover **mg-integer-add** \`d x y\`: three integers
definition 1 13 1 14
references 4
highlights 4
rename 4
symbols main
completion mg-integer-add \${1:d} \${2:x} \${3:y}
adapter editor adapter
configuration \${file}"
if type -P node >/dev/null; then
    told=$(STACK_TRIED=0 node .ci/tools/play_code.js editor/code "$stack" "$folder")
    [ "$told" = "$wanted" ] || { echo "editor: the extension shows:"; echo "$told"; exit 1; }
fi
echo "editor: ok"
