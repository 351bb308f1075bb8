# What stands in for zsh's own functions of completion, and prints what may stand in place of the last word.
compset() { local cut=${2//\*/*}; [[ $PREFIX == ${~cut}* ]] || return 1
            local rest=${PREFIX##${~cut}}; done+=${PREFIX%$rest}; PREFIX=$rest; }
compadd() { local it; for it; do case $it in (-a|-S|names|plain|'') ;; (*) return 1 ;; esac; done
            for it in ${(P)@[-1]}; do [[ $it == $PREFIX* ]] && print -r -- $done$it; done; }
_files() { local it; for it in $PREFIX*(N${1:+/}); do print -r -- $it; done; }
file=$1; shift; words=("$@"); CURRENT=$#; PREFIX=${words[-1]} done=
f() { source $file }; f
