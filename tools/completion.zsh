#compdef ccalc
# Completion of ccalc for zsh, after compinit: source tools/completion.zsh; or put it as _ccalc into a folder of $fpath.
# Labels come from tools/labels, with those of included files: beside this file, or ccalc-labels where the tools are installed.

_ccalc_labels_tool=${${(%):-%x}:A:h}/labels
[ -x $_ccalc_labels_tool ] || _ccalc_labels_tool=ccalc-labels

_ccalc_labels() { # the labels of the description among the words
    local word
    local -a labels
    for word in ${(Q)${(M)words:#*.(cc|ccalc)}}; do
        labels+=(${(f)"$($_ccalc_labels_tool -- $word 2>/dev/null)"})
    done
    compadd -a labels
}

_ccalc() {
    local mode=list name at=${words[(I)--mode]}
    local -A all
    local -a names options
    (( at )) && mode=$words[at+1]
    all=(
        --query '[the query with this label]:label:_ccalc_labels'
        --count '[at most so many histories or models]:number:'
        --budget '[at most so many derived clauses in a section]:number:'
        --after '[only the histories after this key]:key:'
        --log '[the file of the log]:file:_files'
        --form '[the version of the log that is written]:version:(1 2)'
        --to '[the file of the log in its other version]:file:_files'
        --key '[the history that is explained]:key:'
        --horizon '[the horizon whose clauses are printed]:horizon:'
        --size '[how many locks a made description has]:number:'
    )
    case $mode in
        list) names=(--query --count --budget --after --log --form) ;;
        check) names=(--query --after --log) ;;
        make) names=(--size --budget) ;;
        convert) names=(--query --after --log --to) ;;
        why) names=(--key) ;;
        export) names=(--query --horizon) ;;
        models) names=(--count --budget --log --form) ;;
        modelscheck) names=(--log) ;;
        sure|forever) names=(--query --budget --log) ;;
        general) names=(--query --count --budget --log) ;;
        surecheck|generalcheck|forevercheck) names=(--query --log) ;;
        *) names=(${(k)all}) ;;
    esac
    for name in $names; do options+=("$name$all[$name]"); done
    _arguments \
        '--mode[the mode]:mode:(list check make convert why export models modelscheck sure surecheck general generalcheck forever forevercheck)' \
        $options \
        '*:description:_files -g "*.(cc|ccalc|cnf)"'
}

if [ "$funcstack[1]" = _ccalc ]; then
    _ccalc "$@" # where zsh has loaded this file as a function
else
    compdef _ccalc ccalc ./ccalc
fi
