# Completes the words of icrun, iclive and the tools in bash. To use it:
#   source tools/icrun.bash

_icrun_files() {
    compopt -o filenames 2>/dev/null
    mapfile -t COMPREPLY < <(compgen -f -- "$1")
}

_icrun_words() {
    mapfile -t COMPREPLY < <(compgen -W "$1" -- "$2")
}

# SCENARIO SCHEDULE [POLICY] behind run and resume, SCENARIO behind audit and migrate.
_icrun() {
    local word=${COMP_WORDS[COMP_CWORD]} most=0
    COMPREPLY=()
    if [ "$COMP_CWORD" -eq 1 ]; then
        _icrun_words "run resume audit make migrate" "$word"
        return
    fi
    case ${COMP_WORDS[1]} in
        run | resume) most=4 ;;
        audit | migrate) most=2 ;;
    esac
    if [ "$COMP_CWORD" -le "$most" ]; then
        _icrun_files "$word"
    fi
}

# SCENARIO PLAN [POLICY].
_iclive() {
    COMPREPLY=()
    if [ "$COMP_CWORD" -le 3 ]; then
        _icrun_files "${COMP_WORDS[COMP_CWORD]}"
    fi
}

# Options where a word begins with -, files elsewhere.
_icrun_tool() {
    local word=${COMP_WORDS[COMP_CWORD]} name options
    COMPREPLY=()
    name=$(basename -- "$1")
    case ${name#icrun-} in
        backup) options="--version --help" ;;
        bench) options="--folder --rounds --instructions --iclive --icrun --version --help" ;;
        carry) options="--logs --output --drop --icrun --version --help" ;;
        chaos) options="--runs --check --checks --seed --jobs --icrun --version --help" ;;
        chart) options="--output --version --help" ;;
        cost) options="--version --help" ;;
        explain) options="--scenario --schedule --policy --logs --version --help" ;;
        fresh) options="--version --help" ;;
        history) options="--json --doubt --csv --version --help" ;;
        lint) options="--icrun --version --help" ;;
        new) options="--version --help" ;;
        page) options="--output --icrun --version --help" ;;
        play) options="--icrun --version --help" ;;
        restore) options="--version --help" ;;
        seal) options="--again --version --help" ;;
        showlog) options="--scenario --component --near --json --version --help" ;;
        *) options="--version --help" ;;
    esac
    case $word in
        -*) _icrun_words "$options" "$word" ;;
        *)
            if [ "${name#icrun-}" = new ] && [ "$COMP_CWORD" -eq 1 ]; then
                _icrun_words "booking approval transfer" "$word"
            else
                _icrun_files "$word"
            fi
            ;;
    esac
}

complete -F _icrun icrun ./icrun
complete -F _iclive iclive ./iclive
complete -F _icrun_tool showlog chart explain
for _icrun_name in backup bench carry chaos chart cost explain fresh history lint new page play restore seal showlog; do
    complete -F _icrun_tool "icrun-$_icrun_name" "tools/$_icrun_name"
done
unset _icrun_name
