# Completes the words of ./stack in bash: commands, levels, and files by the endings that they usually have. To have it in each shell,
# in ~/.bashrc:
#     source FOLDER/guide/completion.bash
# Commands and words are those of commands.txt beside this file.

_stack_commands=$(dirname "$(readlink -f "${BASH_SOURCE[0]}")")/commands.txt

# Prints a field of the blocks of commands.txt that are of this kind, and have this name where one is wanted.
_stack_fields() {
    awk -v RS= -v FS='\n' -v kind="$1" -v name="$2" -v field="$3" '
        { split($1, word, " ") }
        word[1] == kind && (name == "" || word[2] == name) && !/\nwaits / {
            for (i = 1; i <= NF; i++) if ($i ~ "^" field " ") print substr($i, length(field) + 2)
        }' "$_stack_commands"
}

_stack_files() {
    local ending
    COMPREPLY=()
    for ending in $(_stack_fields file "$2" ending); do
        mapfile -t -O "${#COMPREPLY[@]}" COMPREPLY < <(compgen -f -X "!*.$ending" -- "$1")
    done
    # A file may have any name.
    [ "${#COMPREPLY[@]}" -gt 0 ] || mapfile -t COMPREPLY < <(compgen -f -- "$1")
    mapfile -t -O "${#COMPREPLY[@]}" COMPREPLY < <(compgen -d -- "$1")
    mapfile -t COMPREPLY < <(printf '%s\n' "${COMPREPLY[@]}" | sort -u | sed '/^$/d')
}

_stack() {
    local word=${COMP_WORDS[COMP_CWORD]} row name ending
    if [ "$COMP_CWORD" = 1 ] || { [ "$COMP_CWORD" = 2 ] && [ "${COMP_WORDS[1]}" = help ]; }; then
        mapfile -t COMPREPLY < <(compgen -W "$({ _stack_fields command "" command; _stack_fields own "" own; } | cut -d ' ' -f 1)" -- "$word")
        return
    fi
    read -r -a row <<<"$(_stack_fields command "${COMP_WORDS[1]}" command)"
    [ "${#row[@]}" -gt 0 ] || read -r -a row <<<"$(_stack_fields own "${COMP_WORDS[1]}" own)"
    COMPREPLY=()
    [ "${#row[@]}" -gt 0 ] || return
    name=${row[COMP_CWORD - 1]-}
    # Of `turns` the last two words come again for each task.
    if [ "${row[-1]}" = .. ] && [ "$COMP_CWORD" -ge ${#row[@]} ]; then
        name=${row[${#row[@]} - 3 + (COMP_CWORD - ${#row[@]}) % 2]}
    fi
    case $name in
    LEVEL)
        mapfile -t COMPREPLY < <(compgen -W "$(_stack_fields choice LEVEL range | sed 's/,\| or / /g')" -- "$word")
        # In place of a level there may be a source, for the debugger of a terminal.
        for ending in $(_stack_fields file SRC ending); do
            mapfile -t -O "${#COMPREPLY[@]}" COMPREPLY < <(compgen -f -X "!*.$ending" -- "$word")
        done
        ;;
    WHAT) mapfile -t COMPREPLY < <(compgen -W "vim emacs code kate" -- "$word") ;;
    \[PART\]) mapfile -t COMPREPLY < <(compgen -W "rows examples random damage" -- "$word") ;;
    ?*) [ -z "$(_stack_fields file "$name" means)" ] || _stack_files "$word" "$name" ;;
    esac
}

complete -o filenames -F _stack stack
