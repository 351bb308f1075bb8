set terminal svg size 480, 380 dynamic font "sans-serif,14" background "white"
set output "{name}.svg"
set key outside bottom center horizontal maxcols 2 width -2 samplen 2 font ",12" title " "
set grid ytics linecolor "#dddddd"
set border 3
set tics nomirror
set xlabel "{x}" offset 0, 0.4
set ylabel "{y}"
