# Completion of the words of `dahlia` for bash: jobs, then files, then the options of the job, each once.
# Read it in by `source tools/completion/dahlia.bash`; `make install` puts it where bash looks for it.

# The options of a job that are not there yet. They stand behind the files.
_dahlia_options() {
    local option
    case $1 in
        interpret) set -- --steps --unchecked ;;
        simulate) set -- --clocks ;;
        *) return ;;
    esac
    for option in "$@"; do
        [[ " ${COMP_WORDS[*]:3:COMP_CWORD-3} " == *" $option "* ]] || echo "$option"
    done
}

# The files whose names end so, and folders; all files where none does.
_dahlia_files() {
    local found
    compopt -o filenames 2>/dev/null
    mapfile -t found < <(compgen -f -X "!*.$1" -- "$2"; compgen -d -- "$2")
    [[ ${#found[@]} -gt 0 ]] || mapfile -t found < <(compgen -f -- "$2")
    COMPREPLY=("${found[@]}")
}

_dahlia() {
    local word=${COMP_WORDS[COMP_CWORD]} before=${COMP_WORDS[COMP_CWORD-1]} job=${COMP_WORDS[1]}
    COMPREPLY=()
    case $COMP_CWORD,$job in
        1,*) mapfile -t COMPREPLY < <(compgen -W "check lower interpret simulate" -- "$word") ;;
        2,check | 2,lower | 2,interpret | 2,simulate) _dahlia_files fuse "$word" ;;
        3,interpret | 3,simulate) _dahlia_files json "$word" ;;
        *,interpret | *,simulate)
            # A number is asked for behind these.
            [[ $before == --steps || $before == --clocks ]] ||
                mapfile -t COMPREPLY < <(compgen -W "$(_dahlia_options "$job")" -- "$word")
            ;;
    esac
}

complete -F _dahlia dahlia
