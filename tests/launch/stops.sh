# A build that is stopped in the middle leaves no process and no lock, and the next one goes on from there. Sourced.

# begin ARGUMENTS..: the launcher in a group of its own, which a signal can be sent to as a terminal does. What the caller of the tests ignores,
# it would ignore too.
begin() {
    : >"$place/err"
    env --default-signal=HUP,INT,TERM setsid "$small/ravundesk" "$@" >"$place/out" 2>"$place/err" </dev/null &
    begun=$!
}

# once CONDITION: waits until it holds.
once() {
    tries=2400
    until eval "$1"; do
        tries=$((tries - 1))
        [ "$tries" -gt 0 ] || fail "waited for long: $1"
        sleep 0.05
    done
}

# stopped_by SIGNAL TARGET STATUS
stopped_by() {
    got=0
    kill -s "$1" -- "$2"
    wait "$begun" 2>/dev/null || got=$?
    [ "$got" = "$3" ] || fail "status $got and not $3 after $1"
    no_process_in "$small"
    [ ! -s "$place/out" ] || fail "something printed by a use that was stopped"
    said 'ravundesk: stopped; the next use goes on from here' 1
    [ -z "$(ls -A "$TMPDIR")" ] || fail "something is left in the temporary folder after $1"
}

stops() {
    command_stops
    proof_stops
}

command_stops() {
    echo '// More.' >>"$small/host/command/src/main.rs"
    : >"$small/slow"
    for signal in INT TERM HUP; do
        rm -f "$small/slowly"
        begin run
        once '[ -e "$small/slowly" ]'
        case $signal in
        INT) stopped_by INT "-$begun" 130 ;;
        TERM) stopped_by TERM "$begun" 143 ;;
        HUP) stopped_by HUP "$begun" 129 ;;
        esac
    done
    waiting_stops
    rm "$small/slow"
    answers "$small/ravundesk" book a "b  c"
    said 'ravundesk: ' 2
    cmp "$place/out" "$place/first" || fail "other lines after a build that was stopped"
}

# One that waits for a build is stopped, and the build goes on.
waiting_stops() {
    rm -f "$small/slowly"
    begin run
    once '[ -e "$small/slowly" ]'
    first=$begun got=0
    mv "$place/err" "$place/err.1"
    begin run
    once 'grep -q "this use waits" "$place/err"'
    kill -s TERM "$begun"
    wait "$begun" 2>/dev/null || got=$?
    [ "$got" = 143 ] || fail "status $got and not 143 of one that waited"
    kill -s 0 "$first" || fail "a build ended with one that waited for it"
    mv "$place/err.1" "$place/err"
    begun=$first
    stopped_by TERM "$begun" 143
}

# rt ends in the midst of a library; another of which a part is gone is cut off by hand, for which the moment is too short to meet.
proof_stops() {
    echo '// More.' >>"$small/crates/first/src/lib.rt"
    begin book
    once 'grep -q "first proved in" "$place/err"'
    stopped_by INT "-$begun" 130
    begin book
    once 'grep -q "program book is built first" "$place/err"'
    sleep 1
    stopped_by TERM "$begun" 143
    answers "$small/ravundesk" book a "b  c"
    cmp "$place/out" "$place/first" || fail "other lines after a proof that was stopped"
    said 'first proved in' 0
    said 'second proved in [0-9]* s; 2 of 3, 1 left' 1
    said 'book proved in [0-9]* s; 3 of 3, 0 left' 1
    said 'waits' 0
    [ -z "$(find "$small/crates" -path '*/out/rt-work-*')" ] || fail "half a library is left"
    rm "$small/crates/second/out/rlib/second.rlib/format"
    echo '// More.' >>"$small/crates/book/src/main.rt"
    answers "$small/ravundesk" book a "b  c"
    cmp "$place/out" "$place/first" || fail "other lines after a library was cut off"
    said 'first proved in' 0
    said 'second proved in [0-9]* s; 2 of 3, 1 left' 1
    said 'book proved in [0-9]* s; 3 of 3, 0 left' 1
    prints_as_first
}
