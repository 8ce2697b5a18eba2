# Draws the times of 1,000 ZCOUNTs at random bounds of a set of 1,000,000 members: gnuplot curve.gp
set terminal png size 900,500
set output "curve.png"
set logscale xy
set xlabel "ZCOUNT number"
set ylabel "microseconds"
set title "ZCOUNT at random bounds, 1,000,000 members"
set grid
plot "curve.zcrackd" with points pt 7 ps 0.4 title "zcrackd stdio", \
     "curve.redis" with points pt 7 ps 0.4 title "Redis"
