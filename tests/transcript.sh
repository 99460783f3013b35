# transcript.sh [--write]: runs the commands of README's and the examples' console blocks and holds what is there to what they print;
# with --write it puts there what they print.
set -eu
cd "$(dirname "$0")/.."
place=$(mktemp -d)
trap 'rm -rf "$place"' EXIT

# The page again, with each command's own output behind it.
again() {
    block=
    while IFS= read -r line; do
        case $block$line in
        '```console') block=console: ;;
        'console:```') block= ;;
        'console:$ '*)
            printf '%s\n' "$line"
            sh -c "${line#"$ "}" 2>&1 </dev/null || true
            continue
            ;;
        console:*) continue ;;
        esac
        printf '%s\n' "$line"
    done <"$1"
}

for page in README.md examples/README.md; do
    again "$page" >"$place/again"
    if [ "${1:-}" = --write ]; then
        cp "$place/again" "$page"
    else
        diff "$page" "$place/again" || {
            echo "$page does not show what its commands print"
            exit 1
        }
    fi
done
echo "the pages show what their commands print"
