#!/usr/bin/env bash
# Prints the examples as a table of rows (docs/ROWS.md), each by `exec` on exactly its bound: examples/rows.sh [PROGRAM].
# Outputs and statuses are those of NAME.out and NAME.run; the bound is the one that the program tells.
set -eu
program=$(readlink -f "${1:-$(dirname "${BASH_SOURCE[0]}")/../qsc}")
cd "$(dirname "$(readlink -f "${BASH_SOURCE[0]}")")"

# the lines that stand for a file's bytes
content() {
  od -An -v -tu1 -w1 "$1" | awk '
    $1 == 10 { print line == "" ? "hex 0a" : "put " line; line = ""; next }
    { line = line ($1 >= 32 && $1 < 127 && $1 != 126 ? sprintf("%c", $1) : sprintf("~%02x", $1)) }
    END { if (line != "") print "text " line }'
}

given() {
  if [ -e "$2" ]; then
    echo "file $1"
    content "$2"
  fi
}

echo '# The examples, each run on exactly its bound; printed by examples/rows.sh.'
for source in *.c derivations/*.c; do
  name=${source%.c}
  options=
  if [ -e "$name.proof" ]; then options+=' --proof a.drv'; fi
  arguments=$(sed -n 's/^args //p' "$name.run")
  if [ -n "$arguments" ]; then options+=" --args=$arguments"; fi
  # shellcheck disable=SC2086 # the options are words of their own
  bound=$("$program" bound "$source" ${options/a.drv/$name.proof} | sed -n 's/^bound //p')
  if [ -e "$name.in" ]; then options+=' --input in'; fi
  printf '\nrow %s\n' "${name##*/}"
  given a.c "$source"
  given a.drv "$name.proof"
  given in "$name.in"
  echo "words exec a.c$options"
  if [ -s "$name.out" ]; then
    echo out
    content "$name.out"
  fi
  printf 'log\nput bound %s\nput exit %s\nend\n' "$bound" "$(sed -n 's/^status //p' "$name.run")"
done
