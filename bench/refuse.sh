#!/usr/bin/env bash
# Refuses each allocation of a call in turn: bench/refuse.sh [PROGRAM [STEP [SOURCE ..]]]
#
# The calls are `build`, `check`, `exec`, `derive`, `outline` and `run`, the sources those of examples/ that are named, by
# default crc32, calc, derivations/countdown and scanner, and one of 2,000 nodes that is made here. Of the allocations each
# STEPth is refused, by default each. Where one is, the status must be 12, with the line `out of memory` and nothing on
# standard output, and no file was made; or all is as with ample memory. Prints for each call how many allocations it
# makes, how many were refused, how many of these ended with status 12, and the seconds; ends with 1 where an answer is
# another. Needs gcc, and a program that takes its memory from the C library (not one of `rt try`).
set -u
here=$(dirname "$(readlink -f "${BASH_SOURCE[0]}")")
source "$here/program.sh"
source "$here/shapes.sh"
step=${2:-1}
sources=("${@:3}")
[ ${#sources[@]} != 0 ] || sources=(crc32 calc derivations/countdown scanner generated)
mkdir made
gcc -shared -fPIC -O2 -o refuse.so "$here/refuse.c" || exit 2

wrong=0
is_made() { compgen -G 'made/*' >/dev/null; }
# the words of a call, with the number of the allocation that is refused, or 0: sets `status`; `out`, `line` and made/ hold
# the rest
call() {
  ! is_made || rm made/*
  (
    ulimit -t 60
    export REFUSED="$1" COUNTED=count LD_PRELOAD="$PWD/refuse.so"
    exec "$program" "${@:2}"
  ) >out 2>line </dev/null
  status=$?
}
is_refused() { [ $status = 12 ] && [ ! -s out ] && [ "$(<line)" = 'out of memory' ] && ! is_made; }
is_as_ample() { [ $status = "$ample" ] && cmp -s out ample.out && cmp -s line ample.line && diff -rq made ample.made >ample.diff; }

# each allocation of one call
refuse() {
  local ample count number refused=0 ran=0 before=$SECONDS
  call 0 "$@"
  ample=$status count=$(cat count)
  rm -rf ample.made && cp out ample.out && cp line ample.line && cp -r made ample.made
  for ((number = 1; number <= count; number += step)); do
    call $number "$@"
    ran=$((ran + 1))
    if is_refused; then
      refused=$((refused + 1))
    elif ! is_as_ample; then
      printf 'allocation %d: status %d %s\n' $number $status "$(head -1 line)"
      wrong=1
    fi
  done
  printf '%-8s %7d allocations %7d refused %7d of them with status 12 %5d s\n' "$1" "$count" $ran $refused $((SECONDS - before))
}

# the calls on one source
refuse_all() {
  local proof=() args=() input=()
  if [ "$1" = generated ]; then
    unit_of program 2000 >a.c
  else
    cp "$top/examples/$1.c" a.c
    [ ! -e "$top/examples/$1.proof" ] || { cp "$top/examples/$1.proof" a.proof && proof=(--proof a.proof); }
    [ ! -e "$top/examples/$1.in" ] || { cp "$top/examples/$1.in" a.in && input=(--input a.in); }
    mapfile -t args < <(sed -n 's/^args /--args=/p' "$top/examples/$1.run")
  fi
  printf '%s, %d bytes\n' "$1" "$(wc -c <a.c)"
  refuse build a.c "${proof[@]}" --out made/a.img
  refuse check a.c "${proof[@]}"
  refuse exec a.c "${proof[@]}" "${args[@]}" "${input[@]}"
  [ ${#proof[@]} != 0 ] || refuse derive a.c --out made/a.drv
  refuse outline a.c
  "$program" build a.c "${proof[@]}" --out a.img >out && refuse run a.img --stack 1048576 "${args[@]}" "${input[@]}"
}

for it in "${sources[@]}"; do refuse_all "$it"; done
exit $wrong
