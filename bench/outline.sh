#!/usr/bin/env bash
# Times `outline` on units of up to 10,000 nodes, on 4 MiB of native stack: bench/outline.sh [PROGRAM] (by default ./qsc,
# which is proved and built at its first call). Prints a line for each shape and size: 2,500, 5,000 and 10,000 nodes or as
# many as the other limits allow. Ends with 1 where a unit has no outline, or the largest takes more than 100 ms.
set -u
here=$(dirname "$(readlink -f "${BASH_SOURCE[0]}")")
source "$here/program.sh"
source "$here/shapes.sh"
ulimit -s 4096

slow=0
for shape in $shapes; do
  for nodes in 2500 5000 10000; do
    unit_of $shape $nodes >a.c
    TIMEFORMAT=%U
    spent=$({ time "$program" outline a.c >out 2>line; } 2>&1)
    milliseconds=$((10#${spent/./}))
    printf '%-12s %6d nodes %8d bytes %6d ms %8d lines\n' $shape $nodes "$(wc -c <a.c)" $milliseconds "$(wc -l <out)"
    [ -s out ] && [ ! -s line ] || slow=1
  done
  [ $milliseconds -le 100 ] || slow=1
done
exit $slow
