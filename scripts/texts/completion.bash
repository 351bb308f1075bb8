# @made@
_gossip_bench() {
    local tool=${1##*/} word=${COMP_WORDS[COMP_CWORD]} before=${COMP_WORDS[COMP_CWORD - 1]}
    local first= name= put= words= folders=
    COMPREPLY=()
    [ "$COMP_CWORD" -eq 1 ] || first=${COMP_WORDS[1]}
    # (bash takes = for a word of its own, if its user doesn't say otherwise)
    if [ "$word" = = ]; then name=$before word=
    elif [ "$before" = = ]; then name=${COMP_WORDS[COMP_CWORD - 2]}
    elif [[ $word == *=* ]]; then name=${word%%=*} put=${word%%=*}= word=${word#*=}
    fi
    case "$tool $before" in
        @files@ | *" <" | *" >") COMPREPLY=($(compgen -f -- "$word")); compopt -o filenames 2>/dev/null; return ;;
        @folders@) COMPREPLY=($(compgen -d -- "$word")); compopt -o filenames 2>/dev/null; return ;;
    esac
    if [ "$name" ]; then
        case "$tool $name" in
            @values@
        esac
        case $tool in
            @lists@) put=$put${word%"${word##*,}"} word=${word##*,} ;;
        esac
        COMPREPLY=($(compgen -P "$put" -W "$words" -- "$word"))
        return
    fi
    case "$tool $first" in
        @plain@
    esac
    COMPREPLY=($(compgen -W "$words" -- "$word"))
    [ -z "$folders" ] || { COMPREPLY+=($(compgen -d -- "$word")); compopt -o filenames 2>/dev/null; }
    [[ ${COMPREPLY[0]} != *= ]] || compopt -o nospace 2>/dev/null
}
complete -F _gossip_bench @commands@
