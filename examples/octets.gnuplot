# Octets over time: those of each flow record, at the time at which it ends, in steps of five seconds.
#
#     gnuplot -e "flows='flows.csv'; picture='octets.svg'" examples/octets.gnuplot
#
# The file of flows has the columns of docs/OPERATORS.md: the last time of a record is the tenth, its octets are the eighth.
# `step=60` behind -e makes each step a minute.
if (!exists("step")) step = 5
set terminal svg size 900,360 background "white"
set output picture
set datafile separator comma
set key off
set xdata time
set timefmt "%Y-%m-%d %H:%M:%S"
set format x "%H:%M:%S"
set xtics nomirror 4 * step
set xlabel sprintf("time at which the record ends (UTC), in steps of %d s", step)
set ylabel "octets"
set format y "%.1s %c"
set yrange [0:*]
set ytics nomirror
set border 3
set grid ytics
set boxwidth 0.8 * step
set style fill solid 0.7 noborder
plot flows every ::1 using (step * floor(timecolumn(10) / step) + step / 2.0):8 smooth frequency with boxes linecolor rgb "#31688e"
