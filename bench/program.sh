# Sourced by the scripts beside it: sets `program` to the given one, by default ./qsc, which is proved and built at its
# first call, and goes to an empty folder that is removed at the end.
top=$(cd "$(dirname "$(readlink -f "${BASH_SOURCE[0]}")")/.." && pwd)
program=$(readlink -f "${1:-$top/qsc}")
folder=$(mktemp -d)
trap 'rm -rf "$folder"' EXIT
cd "$folder" || exit 1
"$program" build none.c --out a.img 2>/dev/null
