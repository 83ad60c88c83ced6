#!/usr/bin/env bash
# Times `check` on large files of derivations, on 4 MiB of native stack: bench/derivations.sh [PROGRAM] (by default ./qsc,
# which is proved and built at its first call). Prints a line for each shape and size, with the user time and whether it
# is below the target: a second, and two for rows of `bal`. Ends with 1 where a file is refused or takes longer; only a
# product of 64 by 64 terms is to be refused, for its limit.
set -u
here=$(dirname "$(readlink -f "${BASH_SOURCE[0]}")")
source "$here/program.sh"
source "$here/shapes.sh"
ulimit -s 4096
target=1000 target_of_bal=2000

# an entry of f: precondition, postcondition, certificate, derivation of the body
entry() { printf '(function f\n (pre %s)\n (post %s)\n (entry %s)\n (body %s))\n' "$@"; }
# so many of a piece around what is within, which end in so many `)`
around() { each "$1" "$2" && printf '%s' "$3" && each "$1" ')'; }
one='int f(int x){return x;}int main(void){return 0;}'
main='int main(void){return 0;}'

# a source of n assignments, and what is needed before them: x, n additions deep
straight() {
  echo "int f(int x){$(each "$1" 'x++;')return x;}$main" >a.c
  entry 0 '(mul 0 (num (result)))' '(arith ((0 0)))' "(seq $(each "$1" '(leaf)')(leaf))" >a.proof
}
# n conditionals that each change x; a `use` at each keeps what is needed from doubling
conditionals() {
  local less='(arith ((1 6) (1 5) (1 9) (1 0)))'
  less="(num x ((1 2)) (num (wrapu (sub x 1)) ((1 4) (1 1) (% 0)) $less))"
  less="(range x (wrapu (sub x 1) ((1 1) (% 0)) ((1 3) (1 0)) $less))"
  echo "unsigned f(unsigned x){$(each "$1" 'if(x>%u)x--;')return x;}$main" >a.c
  { printf '(function f (pre (num x)) (post (num (result))) (entry (same)) (body (seq '
    each "$1" "(use (num x) (split (lt % x) $less (same)) (if (leaf) (leaf)))" && printf '(leaf))))'; } >a.proof
}
# n calls: precondition, postcondition, certificate of the entry, and what each call is derived by
row_of_calls() {
  echo "void g(void){}void f(void){$(each "$1" 'g();')}$main" >a.c
  entry "$2" "$3" "$4" "(seq $(each "$1" "$5"))" >a.proof
}
calls_use() { row_of_calls "$1" '(cost g)' '(cost g)' '(same)' '(use (cost g) (all (same) (unfold g (arith ((0 0))))) (bal))'; }
calls_frame() { row_of_calls "$1" '(add (cost g) (name g) 0)' '(add (cost g) (name g) 0)' '(same)' '(call 0 (same))'; }
# what is needed nests a maximum deeper at each call, in the end deeper than the parts of a certificate may: it is shown
# from a precondition that nothing meets
calls_bal() { row_of_calls "$1" '(guard (le 1 0) 0)' '(cost g)' '(assume (absurd ((1 1))))' '(bal)'; }

# a certificate for a function that only returns
certificate() { echo "$one" >a.c && entry 0 "${2-0}" "$1" '(seq (leaf))' >a.proof; }
picks() {
  echo "$one" >a.c
  entry "(max $(each "$1" '(mul % (num x)) '))" "(max $(each "$1" '(mul % (num (old x))) '))" \
    "(all $(each "$1" '(pick % (same))'))" '(seq (leaf))' >a.proof
}
wraps() { certificate "(split (le $(around "$1" '(wraps ' x) 0) (same) (same))"; }
sums_of_wraps() { certificate "(split (le $(around "$1" '(wraps (add 1 ' x)$(each "$1" ')') 0) (same) (same))"; }
# chains of 500 nodes beside each other
rows() { certificate "(all $(each $(($1 / 500)) "$2"))" "(max $(each $(($1 / 500)) '0 '))"; }
facts() { rows "$1" "$(around 499 '(range x ' '(same)')"; }
vias() { rows "$1" "$(around 249 '(via 0 (same) ' '(same)')"; }
splits() {
  certificate "$(awk -v count="$1" '
    function tree(n, i) {
      if (n < 3) { printf "(same)"; return }
      printf "(split (le x %d) ", i; tree(int((n - 1) / 2), i - n); tree(n - 1 - int((n - 1) / 2), i + n); printf ")"
    }
    BEGIN { tree(count, 0) }')"
}
# so many unknowns, each a `num` of a multiple of a variable and a number
unknowns() { each "$1" "(num (add (mul $2) %)) "; }
product() { echo "(mul (add $(unknowns "$1" "2 $2")) (add $(unknowns "$1" "3 $2"))) "; }
products() { # n products of 8 by 8 terms
  echo "$one" >a.c
  entry "(max $(each "$1" "$(product 8 x)"))" "(max $(each "$1" "$(product 8 '(old x)')"))" \
    "(all $(each "$1" '(pick % (arith ()))'))" '(seq (leaf))' >a.proof
}
large_product() { # one of 64 by 64 terms
  certificate "(via $(product 64 x) (arith ()) (arith ()))"
}
definitions() { echo "$main" >a.c && each "$1" '(define d% 0)' >a.proof; }
definitions_in_turn() {
  echo "$main" >a.c
  awk -v count="$1" 'BEGIN {
    print "(define d0 0)"
    for (i = 1; i < count; i++) printf "(define d%d (name d%d))\n", i, i - 1
  }' >a.proof
}
definitions_of_first() { echo "$main" >a.c && { echo '(define d 0)' && each "$1" '(define d% (name d))'; } >a.proof; }

slow=0
try() {
  local most=$target said milliseconds spent TIMEFORMAT=%U
  [ "$1" != calls_bal ] || most=$target_of_bal
  "$1" "$2"
  spent=$({ time "$program" check a.c --proof a.proof >out 2>line; } 2>&1)
  milliseconds=$((10#${spent/./}))
  said=$(cat out line | cut -c1-40)
  printf '%-22s %6d %8d bytes %6d ms  %-7s %s\n' "$1" "$2" "$(wc -c <a.proof)" $milliseconds \
    "$([ $milliseconds -le $most ] && echo below || echo ABOVE)" "$said"
  [ $milliseconds -le $most ] || slow=1
  case $1:$said in
    large_product:'a.proof: f entry .0: limit 2') ;;
    large_product:* | *:'') slow=1 ;;
    *:'checked '*) ;;
    *) slow=1 ;;
  esac
}

for n in 500 1000 2000 3300; do try straight $n; done
for n in 350 700 1426; do try conditionals $n; done
for shape in calls_use calls_frame calls_bal; do for n in 1125 2250 4500; do try $shape $n; done; done
for shape in facts vias splits; do for n in 2500 5000 10000; do try $shape $n; done; done
for n in 200 400 1600; do try picks $n; done
for n in 250 500 1000; do try wraps $n; done
for n in 125 250 500; do try sums_of_wraps $n; done
for n in 25 50; do try products $n; done
try large_product 1
for shape in definitions definitions_in_turn definitions_of_first; do try $shape 1000; done
exit $slow
