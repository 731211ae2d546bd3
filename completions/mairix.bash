# Completes mairix(1) in bash: options, files, and the prefixes of both query languages.

_mairix() {
    local word=${COMP_WORDS[COMP_CWORD]} before=${COMP_WORDS[COMP_CWORD - 1]}
    local options='-f -r -x -t -o -h -V --stdout --boolean --once --verify --help --version'
    local prefixes='s: b: t: c: f: a: n: m: d: z: F:'
    COMPREPLY=()
    case $before in
    -f | -o)
        compopt -o filenames 2>/dev/null
        mapfile -t COMPREPLY < <(compgen -f -- "$word")
        return
        ;;
    esac
    # The word after a colon can't be guessed.
    [[ $word == *:* || $before == : ]] && return
    if [[ $word == -* && " ${COMP_WORDS[*]:0:COMP_CWORD} " != *' -- '* ]]; then
        mapfile -t COMPREPLY < <(compgen -W "$options" -- "$word")
        return
    fi
    [[ " ${COMP_WORDS[*]:0:COMP_CWORD} " == *' --boolean '* ]] && prefixes='from: to: subject: body: id: date:'
    compopt -o nospace 2>/dev/null
    mapfile -t COMPREPLY < <(compgen -W "$prefixes" -- "$word")
    # After a single match, bash would close a quote that the user has opened. With two matches it takes what they share.
    [[ $word == [\'\"]* && ${#COMPREPLY[@]} == 1 ]] && COMPREPLY+=("${COMPREPLY[0]}WORD")
    return 0
}

complete -F _mairix mairix
