# A part of the script `stack`: which program this is, how it was proved, and the release for those who only run it.

# The file of the completion and the program, from where they are installed.
completion=../../../lib/verified-short-stack/guide/completion.bash
started=../lib/verified-short-stack/stack

# Has the folder or the file that `room` names go, however the script ends.
clean_at_end() {
    trap 'rm -rf -- "$room"' EXIT
    trap 'exit 130' INT
    trap 'exit 143' TERM
    trap 'exit 129' HUP
}

# The lines that say how the program was proved, where there are some.
proof_lines() {
    if [ -e "$release" ]; then
        sed -n '/^commit /,/^sha256 /p' "$release"
    else
        cat "$record" 2>/dev/null
    fi
}

# What the line with this name says.
proof_line() { proof_lines | sed -n "s/^$1 //p"; }

# Says on standard output which program this is, and whether it is the one that was proved.
say_version() {
    local status=0 text
    text=$(describe_version) || status=$?
    printf '%s\n' "$text" 2>/dev/null || exit 11
    exit "$status"
}

# Whether the program is the one of which it is known how it was proved.
is_proved() { [ "$(sha256sum <"$program" | cut -d ' ' -f 1)" = "$(proof_line sha256)" ]; }

# Says in a few words whether the program that runs is proved.
describe_program() {
    if [ "$program" = "$trial" ]; then
        echo "the unproved program that a trial built"
    elif [ -z "$(proof_line sha256)" ]; then
        echo "a program of which it wasn't written down how it was proved"
    elif is_proved; then
        echo "the proved program of commit $(proof_line commit)"
    else
        echo "a program that isn't the one that was proved"
    fi
}

describe_version() {
    echo "the verified short stack, for Linux on x86-64"
    if [ -z "$built" ]; then
        echo "the program isn't built yet, or was changed since: $self prove proves and builds it"
        return
    fi
    proof_lines
    if [ -z "$(proof_line sha256)" ]; then
        echo "how it was proved wasn't written down: $self prove does that"
    elif ! is_proved; then
        echo "the program isn't the one that was proved: its sha256 is another"
        return 70
    fi
}

# What a release has of the repository, beside the program: what runs without the rest, and the pages that others lead to.
released=(stack guide editor docs examples conformance hardware README.md CHANGES.md CITATION.cff CONTRIBUTING.md)
# The text of what is to be believed of the theorem, and what makes it, in the repository.
believed=docs/proved/implements.txt
believing=(tools/believe.py --text stack_build.Implements.Implements)

released_files() {
    git -C "$here" ls-files -- "${released[@]}" 2>/dev/null | grep . ||
        (cd "$here" && find "${released[@]}" -type f ! -name '*.pyc')
}

# Says what the release is, and how it was proved.
describe_release() {
    cat <<END
This is the verified short stack, for Linux on x86-64. The program is crates/cli_stack/out/cli_stack; ./stack starts it.

$(proof_lines)

What was proved: each function of the crates of this commit meets its contract. README.md has the theorem that the contract of the program's top
call states, what has to be believed and what is trusted, and docs/proved/promises.md each promise. $believed is the text of the
definitions that the theorem rests on, as  python3 ${believing[*]}  prints it. The sources and the proofs aren't here: they
are the commit's.

To check: ./stack --version compares the program with the sum above. Whoever wants the proof itself takes the commit and the kit, and says
./stack prove.
END
}

# Copies what a release has into a folder.
stage() {
    mkdir -p "$1" || exit 70
    released_files | (cd "$here" && tar -cf - --files-from=-) | tar -xf - -C "$1" || exit 70
    # A release has the text already.
    [ -e "$1/$believed" ] || { find_python && "$python" -B "$here/${believing[0]}" "${believing[@]:1}" >"$1/$believed"; } || exit 70
    mkdir -p "$1/crates/cli_stack/out" && cp "$program" "$1/crates/cli_stack/out/" || exit 70
    describe_release >"$1/PROVED" || exit 70
    chmod -R u=rwX,go=rX "$1" || exit 70
}

# Whether there is a proved program, of which it is known how it was proved.
demand_proof() {
    if [ -z "$built" ] || [ -z "$(proof_line sha256)" ]; then
        say "$1 takes the proved program, which isn't built yet, or was changed since, or not by this script. $self prove proves and builds it"
        exit 70
    fi
}

# Stores a release: the same bytes for the same files and the same proof. It is written beside its name, and renamed.
be_pack() {
    local name made part
    demand_proof pack
    if [ -e "$release" ]; then
        say "this is a release already"
        exit 70
    fi
    name=stack-$(proof_line commit | cut -c -7)
    made=${1-$name-linux-x86-64.tar.gz}
    ! is_person || guard_output pack "$made"
    room=$(mktemp -d) || exit 70
    clean_at_end
    stage "$room/$name"
    part=$made
    if [ ! -L "$made" ] && { [ ! -e "$made" ] || [ -f "$made" ]; }; then
        part=$(mktemp -p "$(dirname -- "$made")" partly-stored-XXXXXX) && trap 'rm -rf -- "$room" "$part"' EXIT && chmod -- "$(rights_of "$made")" "$part" || exit 10
    fi
    tar -cf - -C "$room" --sort=name --format=ustar --owner=0 --group=0 --numeric-owner --mtime="$(proof_line 'proved on')" "$name" |
        gzip -n -9 >"$part" && [ "${PIPESTATUS[*]}" = "0 0" ] || exit 10
    [ "$part" = "$made" ] || mv -fT -- "$part" "$made" || exit 10
    say "$made is stored, $(wc -c <"$made") bytes. Unpacked anywhere on Linux for x86-64 it runs, with neither the kit nor Python"
    exit 0
}

# The rights of a file, or those of a new one.
rights_of() { stat -Lc %a -- "$1" 2>/dev/null || printf '%o' $((0666 & ~$(umask))); }

# Ends where what is to be installed under a name would replace what another program has there.
keep_others() {
    if { [ -e "$1" ] || [ -L "$1" ]; } && ! "${@:2}"; then
        say "$1 is there, and is another program's"
        exit 70
    fi
}

leads_to() { [ "$(readlink -- "$2")" = "$1" ]; }
is_own_page() { [ -f "$1" ] && grep -qs '^stack .- compiles, links, runs and shows programs of the verified short stack$' -- "$1"; }

# Has a name lead to a file, and to nothing else at any moment.
make_link() {
    local new
    new=$(mktemp -u -- "$2.XXXXXX") && ln -s -- "$1" "$new" && mv -fT -- "$new" "$2"
}

# Installs the program, its manual page and its completion below a folder. The old installation stays until the new one is whole, and what another program
# has there stays.
be_install() {
    local folder old
    if [ $# != 1 ] || [ -z "$1" ]; then
        say "wanted is $self install FOLDER, as $self install ~/.local"
        exit 1
    fi
    demand_proof install
    case $1 in -*) set -- "./$1" ;; esac
    folder=$1/lib/verified-short-stack
    [ ! "$folder" -ef "$here" ] || { say "$folder is this release itself"; exit 70; }
    if [ -e "$folder" ] && [ ! -e "$folder/PROVED" ]; then
        say "$folder is there, and is no release of this program"
        exit 70
    fi
    keep_others "$1/bin/stack" leads_to "$started" "$1/bin/stack"
    keep_others "$1/share/bash-completion/completions/stack" leads_to "$completion" "$1/share/bash-completion/completions/stack"
    keep_others "$1/share/man/man1/stack.1" is_own_page "$1/share/man/man1/stack.1"
    mkdir -p "$1/lib" "$1/bin" "$1/share/man/man1" "$1/share/bash-completion/completions" || exit 70
    room=$(mktemp -d "$folder.XXXXXX") || exit 70
    clean_at_end
    stage "$room/new"
    # From here on it goes to its end.
    trap '' INT TERM HUP
    old=$room/old
    [ ! -e "$folder" ] && [ ! -L "$folder" ] || mv -T "$folder" "$old" || exit 70
    mv -T "$room/new" "$folder" || { mv -T "$old" "$folder"; exit 70; }
    cp "$folder/docs/program/stack.1" "$room/stack.1" && mv -fT "$room/stack.1" "$1/share/man/man1/stack.1" || exit 70
    make_link "$completion" "$1/share/bash-completion/completions/stack" && make_link "$started" "$1/bin/stack" || exit 70
    say "$1/bin/stack is installed, with its manual page and its completion. All else of it lies in $folder"
    exit 0
}
