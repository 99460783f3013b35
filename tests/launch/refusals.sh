# What the launcher says where it can't build or hand over: a line, and status 2. Sourced.

refusals() {
    toolbox use sh readlink uname find sort sha256sum awk cmp cat
    toolbox build sh readlink uname find sort sha256sum awk flock setsid mktemp rm mkdir chmod date cat mv ls tail head xargs id
    prints_as_first env PATH="$place/use"
    closed_ones
    missing_tools
    other_places
    failed_builds
    if [ "$(id -u)" = 0 ]; then
        installs_cargo
        as_another_user
    else
        echo "not tried, since this is not root: Debian's cargo installed, a tree that can't be written"
    fi
}

closed_ones() {
    refuses "standard output is closed" sh -c 'exec "$0" run >&-' "$small/ravundesk"
    use sh -c 'exec "$0" run <&-' "$small/ravundesk"
    [ "$got" = 0 ] || fail "status $got with standard input closed, which the command is told of"
    use sh -c 'exec "$0" run 2>&-' "$small/ravundesk"
    [ "$got" = 0 ] || fail "status $got with standard error closed"
}

missing_tools() {
    mv "$small/.ravundesk" "$place/installed"
    toolbox bare sh readlink uname
    refuses "there is no sha256sum here, which tells whether the sources have changed (Debian: coreutils)" \
        env PATH="$place/bare" "$small/ravundesk" run
    for tool in flock setsid; do
        mv "$place/build/$tool" "$place/away"
        refuses "there is no $tool here, which a build needs (Debian: util-linux)" env PATH="$place/build" "$small/ravundesk" run
        mv "$place/away" "$place/build/$tool"
    done
    refuses "there is no cargo here, which builds what is in Rust: install it (Debian: cargo)" \
        env PATH="$place/build" "$small/ravundesk" run
    ln -s "$(command -v cargo)" "$place/build/cargo"
    refuses "there is no rt here, the Rattle toolchain, which proves and builds the program book" \
        env PATH="$place/build" "$small/ravundesk" book
    rm "$place/build/cargo"
    refuses "no temporary folder can be made in $place/none, and the command is not built" \
        env TMPDIR="$place/none" "$small/ravundesk" run
    [ ! -e "$small/.ravundesk" ] || fail "something is made where nothing can be built"
    mv "$place/installed" "$small/.ravundesk"
    other_machine
}

# A machine that no program is for, and a kit that has nothing to start one with.
other_machine() {
    mkdir -p "$place/machine" "$place/kit"
    printf '#!/bin/sh\necho riscv64\n' >"$place/machine/uname"
    printf '#!/bin/sh\necho "%s/START-HERE.md"\n' "$place/kit" >"$place/kit/rt"
    chmod +x "$place/machine/uname" "$place/kit/rt"
    refuses "this machine is riscv64, and the Rattle kit here has no emulator for it: proved programs are for x86-64" \
        env PATH="$place/machine:$PATH" "$small/ravundesk" book
    mv "$small/.ravundesk/book" "$place/book"
    refuses "the Rattle kit that rt belongs to has no loader for proved programs" \
        env PATH="$place/kit:$PATH" "$small/ravundesk" book
    mv "$place/book" "$small/.ravundesk/book"
}

# From another folder, through a link, and with a program whose loader is gone.
other_places() {
    ln -s "$small/ravundesk" "$place/a link"
    (cd "$place/tmp" && "../a link" book a "b  c") >"$place/out" 2>"$place/err" || fail "status $? through a link"
    cmp "$place/out" "$place/first" || fail "other lines through a link"
    for start in "$small"/.ravundesk/book/*/start; do echo "$place/gone" >"$start"; done
    refuses "there is no rt here, the Rattle toolchain, which proves and builds the program book" \
        env PATH="$place/build" "$small/ravundesk" book a "b  c"
    answers "$small/ravundesk" book a "b  c"
    said 'ravundesk: ' 2
    said 'proved in' 0
    prints_as_first
}

failed_builds() {
    cp -a "$small/crates/first/src/lib.rt" "$small/host/command/src/main.rs" "$place"
    echo 'pub fn eight() -> usize { seven }' >>"$small/crates/first/src/lib.rt"
    fails "ravundesk: the program book is not proved, so it is not installed" '^src/lib.rt:[0-9:]* error'
    cp -a "$place/lib.rt" "$small/crates/first/src"
    echo 'fn main() {}' >>"$small/host/command/src/main.rs"
    fails "ravundesk: the command can't be built" '^error'
    cp -a "$place/main.rs" "$small/host/command/src"
    answers "$small/ravundesk" book a "b  c"
    cmp "$place/out" "$place/first" || fail "other lines after a build that failed"
    prints_as_first
}

# fails LINE PATTERN: the builder's own words come before the launcher's line.
fails() {
    use "$small/ravundesk" book
    [ "$got" = 2 ] || fail "status $got and not 2 of a build that fails"
    [ ! -s "$place/out" ] || fail "something printed by a build that fails"
    [ "$(tail -n 1 "$place/err")" = "$1" ] || fail "not said at last: $1"
    grep -q "$2" "$place/err" || fail "not told: $2"
}

# With an apt-get of our own, which puts a cargo where it is found.
installs_cargo() {
    rm -rf "$small/.ravundesk/command"
    cat >"$place/build/apt-get" <<END
#!/bin/sh
echo "\$*" >>"$place/apt"
case \$* in *install*) printf '#!/bin/sh\nPATH="%s" exec cargo "\$@"\n' "$PATH" >"$place/build/cargo" && chmod +x "$place/build/cargo" ;; esac
END
    chmod +x "$place/build/apt-get"
    printf '#!/bin/sh\nPATH="%s" exec rustc "$@"\n' "$PATH" >"$place/build/rustc"
    chmod +x "$place/build/rustc"
    answers env PATH="$place/build" "$small/ravundesk" run
    said "ravundesk: there is no cargo here: Debian's is installed first, which takes a minute or two" 1
    said 'ravundesk: ' 3
    [ "$(cat "$place/apt")" = "-qq update
-qq install -y cargo" ] || fail "apt-get is not called as it should be"
}

# A tree that is another's: what is installed runs, and nothing can be built.
as_another_user() {
    nobody='setpriv --reuid=65534 --regid=65534 --clear-groups'
    prints_as_first $nobody
    mv "$small/.ravundesk/book" "$place/book"
    refuses "$small/crates/first/out can't be written, and the proved program book is not built" $nobody "$small/ravundesk" book
    chmod 000 "$small/crates/first/src/lib.rt"
    refuses "the sources can't be read: sha256sum: crates/first/src/lib.rt: Permission denied" $nobody "$small/ravundesk" book
    chmod 644 "$small/crates/first/src/lib.rt"
    mv "$place/book" "$small/.ravundesk/book"
}
