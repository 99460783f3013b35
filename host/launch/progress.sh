# How far a proof is, told crate by crate as they are done: a line for each that was proved, or a bar where standard error is a terminal.
# Sourced by build.sh.

# as_time SECONDS
as_time() {
    if [ "$1" -lt 60 ]; then echo "$1 s"; else echo "$(($1 / 60)) min $(($1 % 60)) s"; fi
}

# draw_bar NAME TOTAL: over the one before. What rt proves at the moment is not told, so the time shows that it goes on.
draw_bar() {
    bar=$(printf '%*s' $((count * 20 / $2)) '' | tr ' ' '#')
    printf '\rravundesk: %s [%-20s] %s of %s crates, %s  ' "$1" "$bar" "$count" "$2" "$(as_time $(($(date +%s) - began)))" >&2
}

# count_line LINE TOTAL: a crate that was proved before counts, and there is nothing to say of it.
count_line() {
    count=$((count + 1)) crate=${1%% *} seconds=${1#* }
    [ -z "$seconds" ] || [ -t 2 ] || say "$crate proved in $seconds s; $count of $2, $(($2 - count)) left"
}

# follow NAME TOTAL: until the proving, which was started last, has ended or is gone. That is looked for before its lines are read, so that
# none of them is missed.
follow() {
    count=0 part='' over=''
    while [ -z "$over" ]; do
        if [ -s "$TMPDIR/ended" ] || ! kill -s 0 "$!" 2>/dev/null; then over=yes; fi
        while IFS= read -r line; do
            count_line "$part$line" "$2"
            part=''
        done
        part=$part$line
        [ ! -t 2 ] || draw_bar "$1" "$2"
        [ -n "$over" ] || sleep 0.5
    done <"$TMPDIR/proved"
    [ ! -t 2 ] || echo >&2
}
