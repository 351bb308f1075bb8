#compdef @commands@
# @made@
local tool=${words[1]:t} before=${words[CURRENT - 1]} name=${PREFIX%%=*} first= folders=
local -a plain names
(( CURRENT == 2 )) || first=${words[2]}
case "$tool $before" in
    @files@) _files; return ;;
    @folders@) _files -/; return ;;
esac
if compset -P '*='; then
    case $tool in
        @lists@) compset -P '*,' ;;
    esac
    case "$tool $name" in
        @values@
    esac
    compadd -a plain
    return
fi
case "$tool $first" in
    @plain@
esac
compadd -S '' -a names
compadd -a plain
[[ -z $folders ]] || _files -/
