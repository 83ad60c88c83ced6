#!/usr/bin/env bash
# Runs what README.md and docs/*.md show and checks what they name: bench/docs.sh [PROGRAM]
#
# Each line `$ COMMAND` of a block is run, in a copy of the repository's top, with what the lines below it show and the
# status 0, or N where `# status N` stands behind it. Each relative link, and each file that is named with its folder,
# is to be there, and so are the tables that bench/forms.py and bench/stack.py print. One line a failure, and then
# `N passed, N failed`. EXPLAIN names the program of tools/explain; else it is that of crates/qs_explain, which one call
# of tools/explain builds.
set -u
top=$(cd "$(dirname "$(readlink -f "${BASH_SOURCE[0]}")")/.." && pwd)
program=$(readlink -f "${1:-$top/qsc}")
export QSC=$program EXPLAIN=${EXPLAIN:-$top/crates/qs_explain/out/qs_explain}
folder=$(mktemp -d)
trap 'rm -rf "$folder"' EXIT
passed=0 failed=0

pass() { passed=$((passed + 1)); }
fail() { failed=$((failed + 1)) && printf '%s\n' "$1"; }

cp -r "$top"/{README.md,docs,examples,include,tools,bench} "$folder"
ln -s "$program" "$folder/qsc"
cd "$folder" || exit 1

# runs `command`, which stands at `place`, and compares what it prints with `shown`
try() {
  local wanted status
  wanted=$(printf '%s' "$command" | sed -n 's/.*# status \([0-9]*\)$/\1/p')
  eval "$command" >"$folder/.said" 2>&1 </dev/null
  status=$?
  if [ "$status" != "${wanted:-0}" ]; then
    fail "$place: status $status: $command"
  elif [ "$(cat "$folder/.said")" != "${shown%$'\n'}" ]; then
    fail "$place: prints otherwise: $command" && diff <(printf '%s' "$shown") "$folder/.said" | sed 's/^/    /'
  else
    pass
  fi
}

# the commands of a file, block by block; lines before the first command of a block show no output
commands() {
  local line number=0 inside= indent='' command='' shown='' place=''
  while IFS= read -r line; do
    number=$((number + 1))
    case $line in
      *'```'*)
        if [ -n "$command" ]; then try; fi
        command='' && indent=${line%%\`*}
        if [ -n "$inside" ]; then inside=; else inside=yes; fi
        ;;
      "$indent\$ "*)
        if [ -n "$inside" ]; then
          if [ -n "$command" ]; then try; fi
          command=${line#"$indent\$ "} shown='' place=$1:$number
        fi
        ;;
      *) if [ -n "$inside" ]; then shown+=${line#"$indent"}$'\n'; fi ;;
    esac
  done <"$top/$1"
}

# the relative links of a file, and the files that it names
names() {
  local name at
  at=$(dirname "$top/$1")
  for name in $(sed 's/`[^`]*`//g' "$top/$1" | grep -o '](\([^)]*\))' | sed 's/^](//; s/[#)].*//' | grep -v '^[a-z]*://' | sort -u); do
    if [ -e "$at/$name" ]; then pass; else fail "$1: no such file: $name"; fi
  done
  for name in $(grep -o '`\(crates\|docs\|examples\|bench\|tools\|include\)/[A-Za-z0-9_./-]*`' "$top/$1" | tr -d '`' | sort -u); do
    if [ -e "$top/$name" ]; then pass; else fail "$1: no such file: $name"; fi
  done
}

# each line of the rest, which a script prints, stands in the file
lines() {
  local line file=$1
  shift
  while IFS= read -r line; do
    if grep -qxF -e "$line" "$top/$file"; then pass; else fail "$file: has no line: $line"; fi
  done < <("$@")
}

cd "$top" && files=(README.md CONTRIBUTING.md docs/*.md examples/README.md crates/README.md) && cd "$folder" || exit 1
for file in "${files[@]}"; do
  commands "$file"
  names "$file"
done
lines docs/FIRMWARE.md bench/forms.py --table
if command -v riscv64-unknown-elf-gcc >/dev/null; then lines README.md bench/stack.py "$program"; fi
printf '%d passed, %d failed\n' "$passed" "$failed"
[ "$failed" = 0 ]
