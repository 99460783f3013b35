# least_stack.sh INPUT [PROGRAM]: the least stack, in KiB, in which the book program, or another, prints what it prints with stack enough,
# found by halving.
set -eu
cd "$(dirname "$0")/.."
place=$(mktemp -d)
trap 'rm -rf "$place"' EXIT
input=$1 program=${2:-book}
STACK_KIB=1024 sh tests/program.sh "$program" <"$input" >"$place/all"
[ -s "$place/all" ] || { echo "no line is printed for $input" >&2; exit 1; }

# within KIB: whether every line is printed in so much stack. A program that runs out of it is killed.
within() {
    STACK_KIB=$1 sh tests/program.sh "$program" <"$input" >"$place/some" 2>/dev/null || return 1
    cmp -s "$place/all" "$place/some"
}

low=8 high=1024
while [ $((high - low)) -gt 1 ]; do
    middle=$(((low + high) / 2))
    if within "$middle"; then high=$middle; else low=$middle; fi
done
echo "$high"
