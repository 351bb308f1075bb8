# gnuplot -c plot.gnuplot COMPARISON PICTURE FROM
# Draws `greatest` and `stale` of the four modes over the rounds from FROM on, as an SVG picture. The lower bound of an
# axis is the least value there, so that differences show.
if (ARGC == 1 && ARG1 eq "--help") {
    print "gnuplot -c plot.gnuplot COMPARISON PICTURE FROM: greatest and stale of four modes from round FROM on"
    exit
}
if (ARGC != 3) {
    print "plot.gnuplot: usage: gnuplot -c plot.gnuplot COMPARISON PICTURE FROM"
    exit status 2
}
set datafile separator comma
# (the last round of a comparison that has the round FROM, else nothing)
last = system("awk -F, -v from='".ARG3."' 'NR == 1 && /^mode,round,/, 0 { if ($2 == from) found = 1; last = $2 } ". \
    "END { if (found && from > 0) print last }' '".ARG1."' 2>/dev/null")
if (last eq "") {
    print "plot.gnuplot: '".ARG1."' isn't a comparison that has the round '".ARG3."'."
    exit status 2
}
first = int(ARG3)
in_view(at) = column(2) >= first ? column(at) : NaN

set terminal svg size 800, 640 font "sans-serif,13" background "white"
set output ARG2
set multiplot layout 2, 1
set xrange [first:last]
set lmargin 10
set grid ytics
set key outside top center horizontal
modes = "scuttle-breadth scuttle-depth precise-oldest precise-newest"
do for [figure = 1:2] {
    set ylabel word("greatest stale", figure)
    if (figure == 2) { unset key; set xlabel "round" }
    set yrange [*:*]
    stats ARG1 skip 1 using (in_view(10 - figure)) nooutput
    set yrange [STATS_min:STATS_max > STATS_min ? STATS_max : STATS_min + 1]
    plot for [i = 1:words(modes)] ARG1 using (strcol(1) eq word(modes, i) ? column(2) : NaN):(column(10 - figure)) \
        with lines linewidth 2 title word(modes, i)
}
unset multiplot
