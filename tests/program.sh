# Runs a proved program, by its name, on standard input, with the kit's loader and C library. Where STACK_KIB is set, in as many KiB of stack and
# with no environment, which would lie in it too.
set -eu
root=$(dirname "$0")/..
words=$(sh "$root/host/launch/start.sh")
name=$1
set --
while IFS= read -r word; do set -- "$@" "$word"; done <<END
$words
END
if [ -n "${STACK_KIB:-}" ]; then
    ulimit -s "$STACK_KIB"
    set -- env -i "$@"
fi
exec "$@" "$root/crates/$name/out/$name"
