#!/usr/bin/env bash
# How long places take of a function with many values: bench/values.sh [PROGRAM] (by default ./qsc).
# Two sources of nearly the most nodes: all values alive at once, and each alive up to the next. Prints for each the values,
# main's cost in bytes and the seconds of `build`; ends with 1 where one isn't built.
set -u
source "$(dirname "$(readlink -f "${BASH_SOURCE[0]}")")/program.sh"

# text with # as the number, from 0 to below a count
numbered() { seq 0 $(($1 - 1)) | sed "s/.*/$2/" | tr -d '\n'; }

all_alive() {
  printf 'int sum(int a,int b,int c,int d,int e,int f,int g,int h){return a+h;}int main(void){'
  numbered "$1" 'int v&=0;'
  seq 0 $(($1 - 1)) | sed 's/^/v/' | paste -sd, | sed -E 's/(([^,]*,){7}[^,]*),?/sum(\1);/g' | tr -d '\n'
  printf 'return 0;}\n'
}

few_alive() {
  printf 'int main(void){int v0=1;'
  seq 1 $(($1 - 1)) | awk '{printf "int v%d=-v%d;", $1, $1 - 1}'
  printf 'return v%d==1;}\n' $(($1 - 1))
}

wrong=0
for kind in all_alive few_alive; do
  count=$([ $kind = all_alive ] && echo 2880 || echo 3200)
  $kind $count >a.c
  TIMEFORMAT=%R
  seconds=$({ time "$program" build a.c --out a.img >out 2>line; } 2>&1) || wrong=1
  printf '%-9s %5d values  cost %6d  %s s\n' $kind "$count" "$(sed -n 's/^cost main //p' out)" "$seconds"
  [ -s line ] && cat line && wrong=1
done
exit $wrong
