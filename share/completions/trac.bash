# Completion of trac, and of the links to it, for bash: commands, options, and a FILE where one is wanted.
_trac() {
    local word=${COMP_WORDS[COMP_CWORD]} command=${COMP_WORDS[0]##*/} at=$COMP_CWORD first=1 words='' files=''
    local every='run play walk debug lint lsp dap page course' shown='--help --version'
    COMPREPLY=()
    if [ "$command" = trac ]; then
        command=${COMP_WORDS[1]} at=$((COMP_CWORD - 1)) first=2
    fi
    case ${COMP_WORDS[COMP_CWORD - 1]} in
        --budget | --journal | --memory | --steps | --step | --keep) return ;;
        --decimals) command=width ;;
    esac
    case $at:${command#trac-} in
        0:*) words="$every help $shown" ;;
        *:width) words='64 128' ;;
        1:help) words=$every ;;
        *:run) words='--budget --journal --decimals --memory' ;;
        *:debug) words='--journal --decimals --memory' files=yes ;;
        *:walk) words='--journal --keep --decimals --memory --prompt' files=yes ;;
        *:lint) words='--steps --input --decimals --keep --memory' files=yes ;;
        *:lsp) words=--stdio ;;
        *:dap) shown=--help ;;
        *:play) words='--budget --journal --decimals --memory' files=yes ;;
        *:page) words='--input --step --budget --decimals' files=yes ;;
        1:course) words="$(echo {1..10} {1..10}.{1..3}) hint solution check" ;;
        2:course) [[ ${COMP_WORDS[first]} != @(hint|solution|check) ]] || words=$(echo {1..10}.{1..3}) ;;
        3:course) [ "${COMP_WORDS[first]}" != check ] || files=yes ;;
    esac
    if [ "$files" ] && [[ $word != -* ]]; then
        compopt -o filenames 2>/dev/null
        mapfile -t COMPREPLY < <(compgen -f -- "$word")
    else
        [[ $word != -* ]] || words+=" $shown"
        mapfile -t COMPREPLY < <(compgen -W "$words" -- "$word")
    fi
}
complete -F _trac trac trac-walk trac-lint trac-lsp trac-dap trac-play trac-page trac-course
