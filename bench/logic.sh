#!/usr/bin/env bash
# Works at the limits of the logic, on 4 MiB of native stack: products of polynomials, certificates of 10,000 nodes, and a
# term of 20,000 levels. Call: bench/logic.sh.
# Prints a line with its milliseconds for each. Ends with 1 where an answer is another than it must be, or where all but the
# deep term take more than a second each.
set -u
folder=$(cd "$(dirname "$(readlink -f "${BASH_SOURCE[0]}")")/../crates/qs_bench" && pwd)
program=$folder/out/qs_bench
[ -x "$program" ] || (cd "$folder" && rt run) >/dev/null 2>&1
ulimit -s 4096
slow=0
said=
before=${EPOCHREALTIME/./}
while IFS= read -r line; do
  now=${EPOCHREALTIME/./}
  milliseconds=$(((now - before) / 1000))
  before=$now
  said+=$line$'\n'
  printf '%s, %d ms\n' "$line" "$milliseconds"
  case $line in
    depth*) ;;
    *) [ "$milliseconds" -le 1000 ] || slow=1 ;;
  esac
done < <("$program")
[ "$said" = "$(cat "$folder/stdout")"$'\n' ] && [ $slow = 0 ]
