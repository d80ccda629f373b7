#!/usr/bin/env bash
# The release that `./stack pack` makes: it is made twice with the same bytes, unpacked, and runs in an empty environment without the kit; what is
# installed below a folder runs from there, with its manual page and its completion.
set -u
export STACK_EXPLAIN=0
top=$(cd "$(dirname "${BASH_SOURCE[0]}")/../.." && pwd)
"$top/stack" prove || exit 1
folder=$(mktemp -d) || exit 1
trap 'rm -rf "$folder"' EXIT
cd "$folder" || exit 1
failed=0

# wants NAME STATUS TEXT WORD..: what is started by the words, without any variable of the environment but a path, ends so and prints the text.
wants() {
    local name=$1 wanted_status=$2 wanted_text=$3 printed status
    shift 3
    printed=$(env -i PATH="$bare" "$@" 2>"$folder/said")
    status=$?
    if [ "$status" != "$wanted_status" ] || [[ $printed != $wanted_text ]] || [ -s "$folder/said" ]; then
        echo "release, $name: status $status, wanted $wanted_status; printed:"
        echo "$printed"
        cat "$folder/said"
        failed=1
    fi
}

# A folder of the commands that a system has, but neither the kit nor Python.
bare=$folder/bare
mkdir bare
for name in env bash awk cat cp cut date dirname find grep head ls mkdir mktemp readlink rm sed sha256sum tail tee tr wc; do
    ln -s "$(type -P "$name")" "bare/$name"
done

"$top/stack" pack one.tar.gz 2>/dev/null || { echo "release: nothing was packed"; exit 1; }
(umask 077 && TZ=Asia/Tokyo LC_ALL=C "$top/stack" pack two.tar.gz 2>/dev/null)
cmp one.tar.gz two.tar.gz || failed=1
mkdir unpacked && tar -xzf one.tar.gz -C unpacked
stack=$(echo "$folder"/unpacked/*/stack)

# dead_links FOLDER: the links of its pages that lead to nothing.
dead_links() {
    python3 - "$1" <<'END'
import re
import sys
from pathlib import Path

for page in Path(sys.argv[1]).rglob("*.md"):
    for link in re.findall(r"\]\(([^)\s#]+)[^)\s]*\)", page.read_text()):
        if "://" not in link and not (page.parent / link).exists():
            print(f"release: {page.relative_to(sys.argv[1])} leads to {link}, which isn't there")
END
}
unpacked=$(echo "$folder"/unpacked/*)
told=$(dead_links "$unpacked") && [ -z "$told" ] || { echo "$told"; failed=1; }
cp -r "$unpacked" without && rm -r without/hardware
[ -n "$(dead_links without)" ] || { echo "release: a dead link isn't told"; failed=1; }
cmp "$unpacked/docs/proved/implements.txt" <(cd "$top" && PYTHONDONTWRITEBYTECODE=1 python3 tools/believe.py --text stack_build.Implements.Implements) || failed=1
grep -q '^Implements image source sizes =$' "$unpacked/docs/proved/implements.txt" || { echo "release: the text of what is believed lacks the theorem"; failed=1; }
"$unpacked/conformance/run" "$unpacked/crates/cli_stack/out/cli_stack" words.rows >said || { echo "release: its rows fail:"; cat said; failed=1; }
"$unpacked/stack" build "$unpacked/examples/first/seven.gypsy" 7 3 board.image >/dev/null
"$unpacked/hardware/run" board.image "$unpacked/examples/first/nine.values" --hex loaded >said 2>&1 && [ -s loaded/words.hex ] ||
    { echo "release: the words for a board: $(<said)"; failed=1; }
seven=$'finished 28\ncondition normal\nx = 7'
examples=${stack%/stack}/examples/first
wants "the example of the README" 0 "$seven" "$stack" go "$examples/seven.gypsy" "$examples/nine.values" 100 100 1000000 seven.image
cmp -s seven.image <("$top/stack" go "$examples/seven.gypsy" "$examples/nine.values" 100 100 1000000 again.image >/dev/null && cat again.image) || {
    echo "release: another image is stored"
    failed=1
}
wants "a refusal" 2 "refused M1 at 0" "$stack" check <(echo '(())')
wants "without words" 1 usage "$stack"
wants "the version" 0 "the verified short stack, for Linux on x86-64"$'\n'"commit "*$'\n'"kit rattle-kit-"*$'\n'"logic "*$'\n'"proved on "*$'\n'"sha256 "* "$stack" --version
wants "nothing to prove" 0 "" "$stack" prove
# The files of an unpacked release may be of any time.
touch "${stack%/stack}/stack" "${stack%/stack}/PROVED"
wants "the example again" 0 "$seven" "$stack" go "$examples/seven.gypsy" "$examples/nine.values" 100 100 1000000 seven.image
echo >>"${stack%/stack}/crates/cli_stack/out/cli_stack"
wants "another program" 70 *"the program isn't the one that was proved: its sha256 is another" "$stack" --version

# What is installed is started by its name, and again from what was installed.
"$top/stack" install "$folder/local" 2>/dev/null || { echo "release: nothing was installed"; failed=1; }
ln -s "$folder/local/bin/stack" bare/stack
wants "what is installed" 0 "$seven" stack go "$examples/seven.gypsy" "$examples/nine.values" 100 100 1000000 seven.image
(cd "$folder" && "$folder/local/bin/stack" install "$folder/further" 2>/dev/null) || { echo "release: nothing was installed further"; failed=1; }
diff -r local/lib further/lib || failed=1
grep -q '^\.TH STACK 1' local/share/man/man1/stack.1 || { echo "release: there is no manual page"; failed=1; }

# completes WANTED WORD..: the last of these words is completed so.
completes() {
    local completed
    completed=$(bash -c '. local/share/bash-completion/completions/stack; COMP_WORDS=(stack "$@") COMP_CWORD=$#; _stack; echo "${COMPREPLY[*]}"' completion "${@:2}")
    [ "$completed" = "$1" ] || { echo "release: ${*:2} is completed as $completed, wanted $1"; failed=1; }
}
touch one.gypsy one.values
completes migrate mig
completes "prun prove" pr
completes piton debug pi
completes one.gypsy debug one
completes emacs editor em
completes rows test ro
completes one.gypsy try one.
completes one.values page one.gypsy one.
completes "--version" --v
[ "$failed" = 0 ] && echo "release: ok"
exit "$failed"
