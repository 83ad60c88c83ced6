#!/usr/bin/env bash
# Times the front end: bench/front.sh [PROGRAM] (by default ./qsc, which is proved and built at its first call).
# Prints a line for each shape of source and each size. Ends with 1 where a comment of 1,048,576 bytes, a C text of that
# size or a unit of 10,000 nodes takes more than half a second.
set -u
source "$(dirname "$(readlink -f "${BASH_SOURCE[0]}")")/program.sh"

# as many copies of a piece as come to at most so many bytes
pieces() { yes "$2" 2>/dev/null | head -n "$(($1 / ${#2}))" | tr -d '\n'; }

# a source of a shape and of about so many bytes
source_of() {
  local room=$(($2 - 64))
  case $1 in
    comment) printf '/*' && pieces $(($2 - 4)) x && printf '*/' ;;
    text) printf 'char a[]="' && pieces $room a && printf '";' ;;
    texts) printf 'char a[]=' && pieces $room '"a" ' && printf ';' ;;
    marks) printf 'void f(void){' && pieces $room ';' && printf '}' ;;
    expressions) printf 'void f(int a){' && pieces $room "a=(a+1)*2-a/3%4<<5&6|7^a>=8&&a!=9||!a;" && printf '}' ;;
    functions) pieces $room 'int f(int a,char*b){if(a<0)return b[a];else return 1;}' ;;
    initialisers) printf 'int a[]={' && pieces $room '12,' && printf '0};' ;;
    parameters) printf 'void f(' && pieces $room 'int*p,' && printf 'int);' ;;
    declarators) printf 'int ' && pieces $room '*a[2],' && printf 'b;' ;;
    structs) pieces $room 'struct s{int a;char b[4],*c;};' ;;
    typenames) printf 'typedef int a' && pieces $room ',a' && printf ';' ;;
    program) pieces $room "int find(struct e*p,int n,int k){int lo;int hi;int m;lo=0;hi=n;while(lo<hi){m=lo+(hi-lo)/2;if((p+m)->k==k)return (p+m)->v;if((p+m)->k<k)lo=m+1;else hi=m;}return -1;} " ;;
    nodes) printf 'int main(void){' && pieces 9997 ';' && printf 'return 0;}' ;;
  esac
}

# milliseconds of the user's time that `build` takes on the source of a shape and a size
time_of() {
  source_of "$1" "$2" >a.c
  local TIMEFORMAT=%U
  spent=$({ time "$program" build a.c --out a.img >out 2>line; } 2>&1)
  milliseconds=$((10#${spent/./}))
  printf '%-14s %8d bytes %6d ms  %s\n' "$1" "$(wc -c <a.c)" "$milliseconds" "$(cut -c1-60 line)"
}

slow=0
for shape in comment text texts marks expressions functions initialisers parameters declarators structs typenames program; do
  for size in 65536 262144 1048576; do
    time_of $shape $size
    case $shape.$size in
      comment.1048576 | program.1048576) [ "$milliseconds" -le 500 ] || slow=1 ;;
    esac
  done
done
time_of nodes 10000
[ "$milliseconds" -le 500 ] || slow=1
exit $slow
