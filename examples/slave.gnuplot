# Draws the offsets and delays that `ptpx measure --csv` writes: gnuplot -e "table='slave.csv'" examples/slave.gnuplot > slave.svg
set terminal svg size 900,420 background rgb 'white'
set datafile separator ','
set title 'A slave against its master'
set xlabel 'seconds since the first report'
set ylabel 'ns'
set key outside top right
stats table using 1 skip 1 nooutput
plot table using ($1-STATS_min):2 skip 1 with linespoints pointtype 7 pointsize 0.4 title 'offset', \
     table using ($1-STATS_min):3 skip 1 with linespoints pointtype 7 pointsize 0.4 title 'path delay'
