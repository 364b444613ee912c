# Read by the scripts of this folder that measure the program: finds ./b2, which setup.sh leaves, or the program that B2 names, and goes
# to an empty folder that is removed at the end.
top=$(cd "$(dirname "$0")/.." && pwd)
program=${B2:-$top/b2}
[ -x "$program" ] || { echo "$program is not there: run ./setup.sh first" >&2; exit 1; }
work=$(mktemp -d)
trap 'rm -rf "$work"' EXIT
