# What is built, when, and what is said of it. Sourced.

# Two at once on a tree where nothing is built: each thing is built by one of them, for which the other waits.
two_first_uses() {
    "$small/ravundesk" book a "b  c" >"$place/out.1" 2>"$place/err.1" &
    use "$small/ravundesk" book a "b  c"
    other=0
    wait "$!" || other=$?
    cat "$place/err.1" >>"$place/err"
    [ "$got$other" = 00 ] || fail "status $got and $other of two first uses"
    cmp "$place/out" "$place/out.1" || fail "two first uses print other lines"
    said 'ravundesk: the command is built first, which takes some seconds' 1
    said 'ravundesk: the command is being built by another use, and this use waits for its end' 1
    said 'ravundesk: the command is built and installed, [0-9]* s' 1
    said 'ravundesk: the proved program book is built first, which can take some minutes (3 crates)' 1
    said 'ravundesk: a proof is going on in this tree, and this use waits for its end' 1
    said 'ravundesk: first proved in [0-9]* s; 1 of 3, 2 left' 1
    said 'ravundesk: book proved in [0-9]* s; 3 of 3, 0 left' 1
    said 'ravundesk: book is proved and installed, [0-9]* s' 1
    [ "$(wc -l <"$place/err")" = 9 ] || fail "other lines said by two first uses"
    [ "$(sed -n 1,3p "$place/out")" = '["book", "a", "b  c"]
proved
commit unknown' ] || fail "not handed over"
    [ "$(sed -n 4p "$place/out")" = "toolchain $(rt version)" ] || fail "the toolchain is not told"
    mv "$place/out.1" "$place/first"
    prints_as_first
}

# prints_as_first [WORDS..]: as the first use did, and says nothing; started by the words.
prints_as_first() {
    silent "$@" "$small/ravundesk" book a "b  c"
    cmp "$place/out" "$place/first" || fail "other lines than at the first use"
}

changes() {
    find "$small/crates" "$small/host" -exec touch {} +
    prints_as_first
    cp -a "$small/crates/book/src/main.rt" "$place/main.rt"
    echo '// More.' >>"$small/crates/book/src/main.rt"
    answers "$small/ravundesk" book a "b  c"
    cmp "$place/out" "$place/first" || fail "other lines after a comment"
    said 'ravundesk: the command is built and installed' 1
    said 'ravundesk: .* proved in' 1
    said 'ravundesk: book proved in [0-9]* s; 3 of 3, 0 left' 1
    # Put back with its old time, which cargo goes by.
    cp -a "$place/main.rt" "$small/crates/book/src/main.rt"
    prints_as_first
    command_changes
    other_verbs
    no_process_in "$small"
}

# A change to the command alone proves nothing again. No more than the last two stay installed.
command_changes() {
    cp -a "$small/host/command/src/main.rs" "$place/main.rs"
    change_command one
    answers "$small/ravundesk" book
    said 'ravundesk: ' 2
    [ "$(head -n 1 "$place/out")" = 'one ["book"]' ] || fail "the change to the command is not there"
    # Said to nobody, and built and installed all the same.
    change_command two
    "$small/ravundesk" book 2>&1 >/dev/null | true
    silent "$small/ravundesk" book
    [ "$(head -n 1 "$place/out")" = 'two ["book"]' ] || fail "the second change to the command is not there"
    cp -a "$place/main.rs" "$small/host/command/src/main.rs"
    answers "$small/ravundesk" book a "b  c"
    cmp "$place/out" "$place/first" || fail "the command is not the one that was put back"
    [ "$(ls "$small/.ravundesk/command" | wc -l)" = 2 ] || fail "old commands stay installed"
}

# change_command WORD: which it prints first.
change_command() {
    sed "s/println!(\"/&$1 /" "$place/main.rs" >"$small/host/command/src/main.rs"
}

# Verbs that need no program, of which one tells of it.
other_verbs() {
    silent "$small/ravundesk" version
    [ "$(wc -l <"$place/out")" = 4 ] || fail "version does not see the program that is installed"
    for word in --help --wrong "$place/none" "$place"; do
        silent "$small/ravundesk" book "$word"
        [ "$(wc -l <"$place/out")" = 1 ] || fail "a program is looked for, and book $word can only be refused"
    done
    silent "$small/ravundesk"
    [ "$(cat "$place/out")" = '[]' ] || fail "no words are not handed over"
    mv "$small/.ravundesk/book" "$place/book"
    silent "$small/ravundesk" version
    [ "$(wc -l <"$place/out")" = 1 ] || fail "version sees a program that is not installed"
    mv "$place/book" "$small/.ravundesk/book"
}

# A second program beside the first: each is built by its own verb alone, and of its own crates.
second_program() {
    silent "$small/ravundesk" expiry --help
    [ ! -e "$small/.ravundesk/expiry" ] || fail "a program is built before it is asked for"
    mv "$small/.ravundesk/book" "$place/book"
    answers "$small/ravundesk" expiry
    said 'ravundesk: the proved program expiry is built first, which can take some minutes (2 crates)' 1
    said 'ravundesk: expiry proved in [0-9]* s; 2 of 2, 0 left' 1
    said 'ravundesk: expiry is proved and installed, [0-9]* s' 1
    said 'ravundesk: ' 3
    [ "$(sed -n 1,2p "$place/out")" = '["expiry"]
proved' ] || fail "the second program is not run"
    [ ! -e "$small/.ravundesk/book" ] || fail "the first program is built for the second"
    silent "$small/ravundesk" version
    [ "$(wc -l <"$place/out")" = 4 ] || fail "version does not see the one program that is installed"
    mv "$place/book" "$small/.ravundesk/book"
    prints_as_first
    silent "$small/ravundesk" version
    [ "$(wc -l <"$place/out")" = 7 ] || fail "version does not see both programs"
    other_crates
    no_process_in "$small"
}

# What the first program stands on and the second does not moves the second not at all.
other_crates() {
    cp -a "$small/crates/second/src/lib.rt" "$place/lib.rt"
    echo '// More.' >>"$small/crates/second/src/lib.rt"
    answers "$small/ravundesk" expiry
    said 'ravundesk: ' 2
    said 'ravundesk: the command is built and installed, [0-9]* s' 1
    cp -a "$place/lib.rt" "$small/crates/second/src/lib.rt"
    silent "$small/ravundesk" expiry
    prints_as_first
}
