#!/usr/bin/env bash
# Sources that nest far past the limit, on 4 MiB of native stack: bench/nesting.sh [PROGRAM] (by default ./qsc).
# Prints a line for each; ends with 1 where a call doesn't end with status 1 and one line, or the last with status 12.
set -u
source "$(dirname "$(readlink -f "${BASH_SOURCE[0]}")")/program.sh"
ulimit -s 4096

# so many times this piece of a piece
copies() { yes "$2" | head -n "$1" | tr -d '\n'; }

wrong=0
# `build` on: what stands before, what begins a level, how many levels, what is inside, what ends a level, what stands behind
try() {
  { printf '%s' "$1" && copies "$3" "$2" && printf '%s' "$4" && copies "$3" "$5" && printf '%s' "$6"; } >a.c
  "$program" build a.c --out a.img >out 2>line
  local status=$?
  printf '%-14s %6d levels  status %d  %s\n' "$2" "$3" $status "$(cut -c1-60 line)"
  { [ $status = 1 ] && [ "$(wc -l <line)" = 1 ]; } || wrong=1
}

for levels in 100 128 1000 100000; do
  try 'int x=' '(' $levels 1 ')' ';'
  try 'int x=' '(' $levels '' '' ''
  try 'int x=' '!' $levels 1 '' ';'
  try 'int x=' '(int)' $levels 1 '' ';'
  try 'int x=' 'sizeof ' $levels 1 '' ';'
  try 'int x=' '1?1:' $levels 1 '' ';'
  try 'int x=1' '+1' $levels '' '' ';'
  try 'int x=' '{' $levels 1 '}' ';'
  try 'int x=a' '[a' $levels '' ']' ';'
  try 'void f(int a){' 'a=' $levels a '' ';}'
  try 'void f(int a){' 'f(' $levels a ')' ';}'
  try 'void f(void)' '{' $levels '' '}' ''
  try 'void f(void)' '{' $levels '' '' ''
  try 'void f(void){' 'if(1)' $levels ';' '' '}'
  try 'void f(void){' 'if(1);else ' $((levels < 90000 ? levels : 90000)) ';' '' '}'
  try 'void f(void){' 'while(1)' $levels ';' '' '}'
  try 'void f(void){' 'for(;;)' $levels ';' '' '}'
  try 'void f(void){' 'do ' $((levels < 80000 ? levels : 80000)) ';' 'while(1);' '}'
  # of more than 10,000 stars no type is made (docs/TOOL.md)
  try 'int ' '*' $((levels < 10000 ? levels : 10000)) x '' ';'
done
try 'int ' 'a,' 10000 b '' ';'
try 'int a' '[1]' 10000 '' '' ';'
try 'void f(' 'int,' 10000 int '' ');'

# each `typedef` puts 10,000 stars in front of the one before: of more than 10,000 together no type is made
{
  printf 'typedef int ' && copies 10000 '*' && printf 't0;'
  for number in $(seq 99); do
    printf 'typedef t%d ' $((number - 1)) && copies 10000 '*' && printf 't%d;' "$number"
  done
} >a.c
"$program" build a.c --out a.img >out 2>line
status=$?
printf '%-14s %6d levels  status %d  %s\n' typedef 1000000 $status "$(cut -c1-60 line)"
[ $status = 12 ] || wrong=1
exit $wrong
