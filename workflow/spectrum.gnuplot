# Draws how many k-mers occur how often: gnuplot -c spectrum.gnuplot HISTOGRAM PICTURE HIGHEST
set terminal png size 800, 500
set output ARG2
set xrange [0:ARG3]
set logscale y
set xlabel "times that a k-mer occurs"
set ylabel "distinct k-mers"
# (the line at 1 is drawn where there are no k-mers, too: gnuplot refuses a picture without a point)
plot ARG1 with boxes notitle, 1 notitle
