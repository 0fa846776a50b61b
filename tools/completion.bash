# Completion of ccalc for bash: source tools/completion.bash
# Labels come from tools/labels, with those of included files: beside this file, or ccalc-labels where the tools are installed.

_ccalc_labels_tool=$(cd "$(dirname "${BASH_SOURCE[0]}")" && pwd)/labels
[ -x "$_ccalc_labels_tool" ] || _ccalc_labels_tool=ccalc-labels

_ccalc_options() { # the options that go with a mode
    case $1 in
        list) echo --query --count --budget --after --log --form ;;
        check) echo --query --after --log ;;
        make) echo --size --budget ;;
        convert) echo --query --after --log --to ;;
        why) echo --key ;;
        export) echo --query --horizon ;;
        models) echo --count --budget --log --form ;;
        modelscheck) echo --log ;;
        sure | forever) echo --query --budget --log ;;
        general) echo --query --count --budget --log ;;
        surecheck | generalcheck | forevercheck) echo --query --log ;;
        *) echo --query --count --budget --after --log --form --to --key --horizon --size ;;
    esac
}

_ccalc_plain() { # a word as the shell will read it: without the signs that quote it
    local text=${1//\\/}
    text=${text#[\"\']}
    printf '%s' "${text%[\"\']}"
}

_ccalc_labels() { # the labels of the description among the words
    local word
    for word in "${COMP_WORDS[@]:1}"; do
        word=$(_ccalc_plain "$word")
        [ -f "$word" ] && case $word in *.cc | *.ccalc) "$_ccalc_labels_tool" -- "$word" 2>/dev/null ;; esac
    done
}

_ccalc_files() { # names of files that fit, one a line: of all kinds, or of those that are read
    compgen -d -- "$1"
    if [ "$2" = all ]; then compgen -f -- "$1"; else compgen -f -- "$1" | grep -E '\.(cc|ccalc|cnf)$'; fi
}

_ccalc() {
    local word=${COMP_WORDS[COMP_CWORD]} before=${COMP_WORDS[COMP_CWORD - 1]} mode=list at kind=
    for ((at = 1; at < COMP_CWORD; at++)); do
        [ "${COMP_WORDS[at]}" != --mode ] || mode=${COMP_WORDS[at + 1]}
    done
    COMPREPLY=()
    case $before in
        --mode) kind="list check make convert why export models modelscheck sure surecheck general generalcheck forever forevercheck" ;;
        --query) kind=$(_ccalc_labels) ;;
        --form) kind="1 2" ;;
        --count | --budget | --after | --key | --horizon | --size) return ;;
        *) case $word in -*) kind="--mode $(_ccalc_options "$mode")" ;; esac ;;
    esac
    if [ "$kind" ] || [ "$before" = --query ]; then
        mapfile -t COMPREPLY < <(compgen -W "$kind" -- "$word")
        return
    fi
    compopt -o filenames 2>/dev/null
    case $before in
        --log | --to) mapfile -t COMPREPLY < <(_ccalc_files "$(_ccalc_plain "$word")" all | sort -u) ;;
        *) mapfile -t COMPREPLY < <(_ccalc_files "$(_ccalc_plain "$word")" | sort -u) ;;
    esac
}

complete -F _ccalc ccalc ./ccalc
