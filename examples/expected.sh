#!/usr/bin/env bash
# Makes NAME.out of each example anew, and the line `status` of NAME.run, by gcc: examples/expected.sh
set -eu
cd "$(dirname "$(readlink -f "${BASH_SOURCE[0]}")")"
folder=$(mktemp -d)
trap 'rm -rf "$folder"' EXIT

cat >"$folder/streams.h" <<'END'
int putchar(int);
int getchar(void);
END
cat >"$folder/start.c" <<'END'
#include <stdio.h>
#include <stdlib.h>
int program_main();
int main(int count, char **words) {
  int a[8] = {0};
  for (int i = 1; i < count && i < 9; i++)
    a[i - 1] = (int)(unsigned)strtoll(words[i], 0, 10);
  int status = program_main(a[0], a[1], a[2], a[3], a[4], a[5], a[6], a[7]);
  fflush(stdout);
  return status & 255;
}
END
gcc -w -c "$folder/start.c" -o "$folder/start.o"

for source in *.c derivations/*.c headers/*.c; do
  name=${source%.c}
  arguments=$(sed -n 's/^args //p' "$name.run" 2>/dev/null || true)
  input=/dev/null
  if [ -e "$name.in" ]; then input=$name.in; fi
  gcc -O0 -std=c11 -pedantic-errors -w -funsigned-char -fwrapv -fno-builtin -include "$folder/streams.h" \
    -Dmain=program_main "$source" "$folder/start.o" -o "$folder/program"
  status=0
  # shellcheck disable=SC2086 # the arguments are words of their own
  timeout 20 "$folder/program" ${arguments//,/ } <"$input" >"$name.out" || status=$?
  { if [ -n "$arguments" ]; then echo "args $arguments"; fi && echo "status $status"; } >"$folder/run"
  mv "$folder/run" "$name.run"
done
