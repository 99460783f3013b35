# This tree: what the first use prints, all others print, eight at a time, some thousands, and with nobody there to ask. Sourced.

uses() {
    for verb in run book; do
        answers ./ravundesk "$verb" examples/day.book
        mv "$place/out" "$place/$verb"
        answers ./ravundesk "$verb" examples/day.book
        cmp "$place/out" "$place/$verb" || fail "the second $verb prints other lines than the first"
        said 'built\|proved in' 0
    done
    seq 1 8 | PATH="$place/use" "$(command -v xargs)" -P 8 -n 1 "$(command -v sh)" -c "$many" "$place" >"$place/out" 2>"$place/err" ||
        fail "a use among many failed, or printed other lines"
    [ "$(cat "$place/out")" = "$(yes 250 | head -n 8)" ] || fail "some uses are missing"
    [ ! -s "$place/err" ] || fail "something said by uses of what is installed"
}

# One of the eight: 250 uses one after the other, one in ten of them of the proved program.
many='
    count=0
    while [ "$count" -lt 250 ]; do
        case $count in *0) verb=book ;; *) verb=run ;; esac
        status=0
        ./ravundesk "$verb" examples/day.book >"$0/out.$1" 2>"$0/err.$1" || status=$?
        [ "$status" = 1 ] || { cat "$0/err.$1" && exit 255; }
        cmp "$0/out.$1" "$0/$verb" || exit 255
        count=$((count + 1))
    done
    echo "$count"'
