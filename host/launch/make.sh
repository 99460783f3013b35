# How the command and a proved program are made, in a folder that is installed when it is whole. Sourced by build.sh.

# The commit that the tree stands at, for the file `built`.
commit_line() {
    commit=unknown
    if [ -e "$root/.git" ] && commit=$(git -C "$root" rev-parse HEAD 2>/dev/null); then
        changes=$(GIT_OPTIONAL_LOCKS=0 git -C "$root" status --porcelain 2>/dev/null) || changes=''
        [ -z "$changes" ] || commit="$commit and changes"
    else
        commit=unknown
    fi
    echo "commit $commit"
}

# make_command FOLDER: from nothing each time, since cargo goes by the times of files, and a source that was put back has an old one.
make_command() {
    get_cargo
    say "the command is built first, which takes some seconds"
    (
        unset CARGO_BUILD_TARGET
        cd "$root/host" &&
            cargo build --offline --release --package ravundesk --target-dir "$1/cargo" >"$TMPDIR/said" 2>&1
    ) || {
        cat "$TMPDIR/said" >&2
        refuse "the command can't be built"
    }
    mv "$1/cargo/release/ravundesk" "$1/ravundesk"
    rm -rf "$1/cargo"
    { commit_line && { rustc --version 2>/dev/null || echo "rustc unknown"; }; } >"$1/built"
    result="the command is built"
}

# mend CRATES..: rt does not miss what is gone of a library that it has a stamp for, and leaves where it stands what it was bringing in from
# another tree when it was cut off. By rt's own locks, so that another that is at work is not disturbed.
mend() {
    for crate; do
        (
            flock 8
            out=$root/crates/$crate/out
            [ -s "$out/rlib/$crate.rlib/format" ] || rm -rf "$out/rlib"
            rm -rf "$out/rt-work-"*
        ) 8<"$root/crates/$crate"
    done
}

# prove CRATES..: each behind those that it stands on. A line in `proved` for each that is: its name, and the seconds that it took where it was
# not proved before.
prove() {
    for crate; do
        since=$(date +%s)
        cd "$root/crates/$crate" || return
        if [ -e src/main.rt ]; then
            run_as_told || return
        else
            rt lib </dev/null >"$TMPDIR/said" 2>&1 || return
        fi
        seconds=''
        if grep -q '^logic=proved ' "$TMPDIR/said"; then seconds=$(($(date +%s) - since)); fi
        echo "$crate $seconds" >>"$TMPDIR/proved"
    done
}

# run_as_told: builds the program and runs it on what its crate has for it, to see that it prints what the crate says.
run_as_told() {
    input=/dev/null
    [ ! -e stdin ] || input=stdin
    rt run <"$input" >"$TMPDIR/printed" 2>"$TMPDIR/said" && cmp "$TMPDIR/printed" stdout >>"$TMPDIR/said" 2>&1
}

# make_program NAME FOLDER
make_program() {
    crates=$(crates_of "$1")
    total=$(printf '%s\n' "$crates" | wc -l)
    say "the proved program $1 is built first, which can take some minutes ($total crates)"
    mend $crates
    : >"$TMPDIR/proved"
    rm -f "$TMPDIR/ended"
    (
        ended=0
        prove $crates || ended=$?
        echo "$ended" >"$TMPDIR/ended"
    ) &
    follow "$1" "$total"
    [ "$(cat "$TMPDIR/ended" 2>/dev/null)" = 0 ] || {
        cat "$TMPDIR/said" >&2
        refuse "the program $1 is not proved, so it is not installed"
    }
    cp "$root/crates/$1/out/$1" "$2/$1"
    sh "$root/host/launch/start.sh" >"$2/start"
    { commit_line && echo "toolchain $(rt version)"; } >"$2/built"
    result="$1 is proved"
}
