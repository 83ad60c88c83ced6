# Units of up to so many nodes, of twelve shapes, for what sources this file.
shapes='statements locals globals uses addresses blocks structs chain members typenames functions program'

# a piece for each number from 0 up to the count, with % for the number
each() { awk -v count="$1" -v piece="$2" 'BEGIN { for (i = 0; i < count; i++) { p = piece; gsub(/%/, i, p); printf "%s", p } }'; }

in_main() { printf 'int main(void){' && "$@" && printf 'return 0;}'; }

uses() { each $(($1 / 5)) 'int a%;' && each $(($1 / 5 - 10)) 'a%=%;'; }
addresses() { each $(($1 / 2)) 'int a%;' && each $(($1 / 8)) '&a%;'; }
members() { each $(($1 / 6 - 10)) 'x.m%=1;'; }
calls() { each $(($1 / 2 - 600)) 'f0();'; }

# blocks within blocks to the limit of height, each with a variable that hides the outer ones
blocks() {
  local left=$(($1 / 6)) depth
  while [ $left -gt 0 ]; do
    depth=$((left < 120 ? left : 120))
    each $depth '{int a;a=%;' && each $depth '}'
    left=$((left - depth))
  done
}

# structs each of which has the one before as a member
chain() { awk -v count="$1" 'BEGIN { for (i = 1; i <= count; i++) printf "struct s%d{struct s%d m;int k;};", i, i - 1 }'; }

# a unit of a shape, with about so many nodes
unit_of() {
  case $1 in
    statements) in_main each $(($2 - 4)) ';' ;;
    locals) in_main each $(($2 - 100)) 'int a%;' ;;
    globals) each $(($2 - 100)) 'int a%;' && in_main true ;;
    uses) in_main uses "$2" ;;
    addresses) in_main addresses "$2" ;;
    blocks) in_main blocks "$2" ;;
    structs) printf 'struct s0{int m;};' && each $(($2 / 3 - 100)) 'struct t%{struct s0 m;struct s0 k;};' && in_main true ;;
    chain) printf 'struct s0{int m;};' && chain $(($2 / 3 - 100)) && in_main true ;;
    members) printf 'struct s{' && each $(($2 / 6)) 'int m%;' && printf '};struct s x;' && in_main members "$2" ;;
    typenames) each $(($2 / 2 - 100)) 'typedef int t%;t% a%;' && in_main true ;;
    functions) each 500 'void f%(void){}' && in_main calls "$2" ;;
    program) each $(($2 / 62)) 'int find%(int*p,int n,int k){int lo;int hi;int m;lo=0;hi=n;while(lo<hi){m=lo+(hi-lo)/2;if(p[m]==k)return m;if(p[m]<k)lo=m+1;else hi=m;}return -1;}' && in_main true ;;
  esac
}
