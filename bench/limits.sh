#!/usr/bin/env bash
# The limits of docs/TOOL.md, each at its edge: bench/limits.sh [PROGRAM [NAME ..]] (by default ./qsc, and all of them).
# Prints for each the peak of memory, the least of 256, 512, .. 4096 KiB of native stack on which it is answered, the
# user's time and the answer. Ends with 1 where one has another answer than it must, also on 4096 KiB, or takes more than
# two seconds. Needs GNU time.
set -u
here=$(dirname "$(readlink -f "${BASH_SOURCE[0]}")")
source "$here/program.sh"
source "$here/shapes.sh"
only=" ${*:2} "

# so many of a piece around what is within, which end in so many of another piece
around() { each "$1" "$2" && printf '%s' "$3" && each "$1" "$4"; }
in_file() { printf '(function f (pre 0) (post %s) (entry %s) (body (seq (leaf))))' "$1" "$2" >a.proof; }
of_one='int f(int x){return x;}int main(void){return 0;}'

# each writes the files of one case
nodes() { in_main each 9996 ';' >a.c; }
nodes_of_a_program() { unit_of program 9900 >a.c; }
height() { in_main around 121 '(' 1 ')' | sed 's/)return/);return/' >a.c; }
functions() { { printf 'int f0(void){return 0;}' && seq 510 | awk '{printf "int f%d(void){return f%d();}", $1, $1 - 1}' && echo 'int main(void){return f510();}'; } >a.c; }
parameters() { echo "int f($(each 15 'int a%,')int b){return a0+b;}int main($(each 7 'int a%,')int b){return f($(each 15 '1,')b);}" >a.c; }
stars() { echo "int $(each 9999 '*')*p;int main(void){return !p;}" >a.c; }
nested_structs() { { printf 'struct s0{int m;};' && seq 3300 | awk '{printf "struct s%d{struct s%d m;};", $1, $1 - 1}' && echo 'struct s3300 x;int main(void){return 0;}'; } >a.c; }
data() { echo 'char a[16777212];int main(void){return a[0];}' >a.c; }
doubled_structs() { { printf 'struct s0{char a;char b;};' && seq 18 | awk '{printf "struct s%d{struct s%d a;struct s%d b;};", $1, $1 - 1, $1 - 1}' && echo 'struct s18 x;int main(void){return 0;}'; } >a.c; }
locals() { echo 'int main(void){char a[1048576];a[0]=7;return a[0];}' >a.c; }
longest_source() { { printf '/*' && head -c 1048547 /dev/zero | tr '\0' x && printf '*/int main(void){return 7;}'; } >a.c; }
conditionals() { echo "unsigned f(unsigned x){$(each "${1:-16}" 'if(x>1u)x--;')return x;}int main(void){return 0;}" >a.c && in_conditionals "${1:-16}"; }
endless_conditionals() { conditionals 1000; }
in_conditionals() { printf '(function f (pre (guard (le 1 0) 0)) (post (num (result))) (entry (assume (absurd ((1 1))))) (body (seq %s(leaf))))' "$(each "$1" '(if (leaf) (leaf)) ')" >a.proof; }
deepest_list() { echo "$of_one" >a.c && in_file 0 "(split (le $(around 1019 '(wraps ' x ')') 0) (same) (same))"; }
definitions() { echo "$of_one" >a.c && seq 930000 | sed 's/.*/(define d& 0)/' | head -c 16777000 | sed '$d' >a.proof; }
terms() { echo "$of_one" >a.c && in_file 0 "(via (mul (add $(each 64 '(num (add (mul 2 x) %)) ')) (add $(each 64 '(num (add (mul 3 x) %)) '))) (arith ()) (arith ()))"; }

wrong=0
# name of the case, pattern of the first line of the answer, words of the call
limit() {
  local name=$1 wanted=$2 said=none stack memory seconds
  [ "$only" = '  ' ] || [[ $only = *" $name "* ]] || return
  shift 2
  rm -f a.c a.proof && $name
  for stack in 256 512 1024 2048 4096; do
    (ulimit -s $stack && exec /usr/bin/time -q -o cost -f '%M %U' "$program" "$@") >out 2>line </dev/null
    said=$(cat line out | head -1 | cut -c1-60)
    # shellcheck disable=SC2053 # a pattern
    [[ $said = $wanted ]] && break
  done
  read -r memory seconds <cost
  printf '%-18s %7d KiB  stack %4d KiB  %6s s  %s\n' "$name" "$memory" $stack "$seconds" "$said"
  # shellcheck disable=SC2053
  [[ $said = $wanted ]] && [ "${seconds/./}" -le 200 ] || wrong=1
}

limit nodes 'cost main 16' build a.c --out a.img
limit nodes_of_a_program 'cost find0 *' build a.c --out a.img
limit height 'cost main 16' build a.c --out a.img
limit functions 'cost f0 16' build a.c --out a.img
limit parameters 'cost f *' build a.c --out a.img
limit stars 'cost main 16' build a.c --out a.img
limit nested_structs 'cost main 16' build a.c --out a.img
limit data 'cost main 16' build a.c --out a.img
limit doubled_structs 'cost main 16' build a.c --out a.img
limit locals 'bound *' exec a.c
limit longest_source 'cost main 16' build a.c --out a.img
limit conditionals 'checked 1 derived 1' check a.c --proof a.proof
limit endless_conditionals 'out of memory' check a.c --proof a.proof
limit deepest_list 'checked 1 derived 1' check a.c --proof a.proof
limit definitions 'checked 0 derived 2' check a.c --proof a.proof
limit terms 'a.proof: f entry .0: limit 2' check a.c --proof a.proof
exit $wrong
