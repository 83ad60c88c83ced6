#!/usr/bin/env bash
# Bytes of code and stack of each function of the examples, and the steps of each run, beside those of gcc for RV32IM
# where riscv64-unknown-elf-gcc is there, at this level (-O0): bench/size.sh [PROGRAM [LEVEL]]
#
# gcc's program is linked with nothing but a start, calls of the environment, and copies of bytes at -O1.
# What gcc makes is put into an image too, and both images run on the same machine.
source "$(dirname "$(readlink -f "${BASH_SOURCE[0]}")")/program.sh"
level=${2:--O0}
gcc=$(command -v riscv64-unknown-elf-gcc || true)
tools=${gcc%gcc}

# ---- gcc's image

cat >start.s <<'END'
.globl _start, putchar, getchar
.section .start, "ax"
_start: call main
        li a7, 0
        ecall
putchar: li a7, 1
        ecall
        ret
getchar: li a7, 2
        ecall
        ret
END
cat >memory.c <<'END'
void *memcpy(char *to, const char *from, unsigned n) { for (unsigned i = 0; i < n; i++) to[i] = from[i]; return to; }
void *memset(char *to, int c, unsigned n) { for (unsigned i = 0; i < n; i++) to[i] = c; return to; }
END
cat >streams.h <<'END'
int putchar(int);
int getchar(void);
END
cat >link.ld <<'END'
SECTIONS {
  . = 0x10000; .text : { *(.start) *(.text*) }
  . = 0x10000000; .data : { *(.data*) *(.rodata*) *(.sdata*) *(.srodata*) *(.bss*) *(.sbss*) *(COMMON) BYTE(0) }
  /DISCARD/ : { *(.comment) *(.note*) *(.riscv*) *(.eh_frame*) }
}
END
options='-march=rv32im -mabi=ilp32 -ffreestanding -fno-builtin -fno-pic -funsigned-char -fwrapv -msmall-data-limit=0 -w'

words() { for n in "$@"; do printf "\\x$(printf %02x $((n & 255)))\\x$(printf %02x $((n >> 8 & 255)))\\x$(printf %02x $((n >> 16 & 255)))\\x$(printf %02x $((n >> 24 & 255)))"; done; }

# from a source to gcc.img, with gcc.su and gcc.sizes for its functions; $2 is the count of main's parameters
gcc_image() {
  # shellcheck disable=SC2086 # the options are words of their own
  "$gcc" $options $level -fstack-usage -include streams.h -c "$1" -o gcc.o &&
    "$gcc" $options $level -nostdlib -Wl,--no-relax,--build-id=none -T link.ld start.o gcc.o memory.o -o gcc.elf || return 1
  "${tools}objcopy" -O binary -j .text gcc.elf gcc.text
  "${tools}objcopy" -O binary -j .data --set-section-flags .data=alloc,load,contents gcc.elf gcc.data
  "${tools}nm" -S gcc.o | awk '$3 == "T" || $3 == "t" { print $4, $2 }' >gcc.sizes
  while [ $(($(wc -c <gcc.text) % 4)) != 0 ]; do printf '\0' >>gcc.text; done
  { printf QSI1 && words $(($(wc -c <gcc.text) / 4)) "$(wc -c <gcc.data)" 1 4 65536 "$2" 0 4 65536 16 && printf main &&
    cat gcc.text gcc.data; } >gcc.img
}

# ---- what is measured

runs() { "$program" run "$1" --stack "$2" --steps "$3" "${call[@]}" >out 2>log && [ "$(cat log)" = "exit $status" ]; }

# the least number from 1 on for which a test is true
least() {
  local low=0 high=64 middle
  until "$@" $high; do low=$high high=$((high * 2)) && [ $high -lt 1000000000 ] || return; done
  while [ $((high - low)) -gt 1 ]; do
    middle=$(((low + high) / 2))
    if "$@" $middle; then high=$middle; else low=$middle; fi
  done
  echo $high
}
in_steps() { runs "$1" 65536 "$2"; }
on_stack() { runs "$1" "$2" 100000000; }

# name and bytes of each function of our image: a record's code goes to the next address, or to the end
our_sizes() {
  od -An -v -tu4 -w4 -N 4096 own.img | awk -v names="$(cut -d' ' -f2 costs | tr '\n' ' ')" '
    { word[NR - 1] = $1 }
    END {
      end = 65536 + 4 * word[1]; split(names, name, " ")
      for (i = 0; i < word[3]; i++) at[i] = word[8 + 4 * i + 1]
      for (i = 0; i < word[3]; i++) {
        behind = end
        for (k = 0; k < word[3]; k++) if (at[k] > at[i] && at[k] < behind) behind = at[k]
        print name[i + 1], behind - at[i]
      }
    }'
}

if [ -n "$gcc" ]; then
  # shellcheck disable=SC2086
  "$gcc" $options -c start.s -o start.o && "$gcc" $options -O1 -fno-tree-loop-distribute-patterns -c memory.c -o memory.o
fi
printf '%-14s %-14s %7s %7s %7s %7s\n' program function bytes gcc stack gcc
for source in "$top"/examples/*.c "$top"/examples/derivations/*.c; do
  name=${source%.c} proof=() call=()
  status=$(sed -n 's/^status //p' "$name.run")
  arguments=$(sed -n 's/^args //p' "$name.run")
  if [ -e "$name.proof" ]; then proof=(--proof "$name.proof"); fi
  if [ -n "$arguments" ]; then call+=("--args=$arguments"); fi
  if [ -e "$name.in" ]; then call+=(--input "$name.in"); fi
  "$program" build "$source" "${proof[@]}" --out own.img >costs || continue
  : >gcc.sizes && : >gcc.su && rm -f gcc.img
  if [ -n "$gcc" ]; then gcc_image "$source" "$(od -An -tu4 -j24 -N4 own.img | tr -d ' ')"; fi
  our_sizes | while read -r function bytes; do
    hexadecimal=$(awk -v f="$function" '$1 == f { print $2 }' gcc.sizes)
    printf '%-14s %-14s %7s %7s %7s %7s\n' "${name##*/}" "$function" "$bytes" "${hexadecimal:+$((16#$hexadecimal))}" \
      "$(awk -v f="$function" '$2 == f { print $3 }' costs)" "$(awk -F'[:\t]' -v f="$function" '$4 == f { print $5 }' gcc.su)"
  done | tee -a functions
  echo "${name##*/} $(least in_steps own.img) $([ -e gcc.img ] && least in_steps gcc.img)" \
    "$(least on_stack own.img) $([ -e gcc.img ] && least on_stack gcc.img)" >>programs
done
echo
printf '%-14s %9s %9s %9s %9s\n' program steps gcc "least stack" gcc
awk '{ printf "%-14s %9s %9s %9s %9s\n", $1, $2, $3, $4, $5 }' programs
awk -v level="$level" 'NF == 6 { b += log($3 / $4); s += log($5 / ($6 ? $6 : 1)); n++ }
  END { if (n) printf "\nof gcc %s, geometric means over %d functions: bytes %.2f, stack %.2f\n", level, n, exp(b / n), exp(s / n) }' functions
awk 'NF == 5 { b += log($2 / $3); s += log($4 / $5); n++ }
  END { if (n) printf "over %d programs: steps %.2f, least stack %.2f\n", n, exp(b / n), exp(s / n) }' programs
