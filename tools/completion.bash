# Completion of m36 for bash: commands, options, and the files of the folder that a command reads.
# For the value of an option it offers nothing.

_m36_commands="
    bare
    audit
    run
    trace
    access
    procs
    debug
    alm
    print
    bind
    make
"

_m36_names() {
    local file
    for file in *"$1"; do
        [ -f "$file" ] && printf '%s\n' "${file%"$1"}"
    done
}

_m36() {
    local word=${COMP_WORDS[COMP_CWORD]} command=${COMP_WORDS[1]} choices=
    if [ "$COMP_CWORD" -eq 1 ]; then
        choices=$_m36_commands
    else
        case $command in
            bare) choices="--steps --unaudited $(_m36_names '')" ;;
            run | trace) choices="--steps --unaudited --user" ;;
            procs) choices="--unaudited $(_m36_names '')" ;;
            audit) choices="--user $(_m36_names '')" ;;
            print | debug) choices=$(_m36_names '') ;;
            alm) choices=$(_m36_names .alm) ;;
            bind) choices=$(_m36_names .bind) ;;
        esac
        case ${COMP_WORDS[COMP_CWORD - 1]} in --steps | --user) choices= ;; esac
    fi
    mapfile -t COMPREPLY < <(compgen -W "$choices" -- "$word")
}

complete -F _m36 m36
complete -f -W "-e --echo --help" m36-debug
