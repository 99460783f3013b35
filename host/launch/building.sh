# The launcher's side of a build: what has to be there for it, and that nothing of it is left behind. Sourced by the launcher.
. "$root/host/launch/cargo.sh"

# named THING: as people call it.
named() {
    case $1 in command) echo "the command" ;; *) echo "the proved program $1" ;; esac
}

# can_build THING: refuses what would fail, before anything is built.
can_build() {
    why=$(sums_of "$1" 2>&1 >/dev/null) || refuse "the sources can't be read: $(printf '%s\n' "$why" | head -n 1)"
    for tool in flock setsid; do
        command -v "$tool" >/dev/null || refuse "there is no $tool here, which a build needs (Debian: util-linux)"
    done
    if [ "$1" = command ]; then
        can_get_cargo
    else
        command -v rt >/dev/null || refuse "there is no rt here, the Rattle toolchain, which proves and builds the program $1"
        why=$(sh "$root/host/launch/start.sh" 2>&1 >/dev/null) || refuse "$why"
        for crate in $(crates_of "$1"); do
            out=$root/crates/$crate/out
            can_write "$1" "$out" "$out/rlib" "$out/incremental"
        done
    fi
    can_write "$1" "$store" "$store/$1" "$store/command.lock" "$store/proofs.lock"
}

# can_write THING PATHS..: each that is there, or else what it would be made in.
can_write() {
    wanted=$(named "$1")
    shift
    for path; do
        if [ ! -e "$path" ]; then path=${path%/*}; fi
        if [ -e "$path" ] && [ ! -w "$path" ]; then refuse "$path can't be written, and $wanted is not built"; fi
    done
}

# build_all THINGS..: each in turn, where all of them can be built.
build_all() {
    scratch='' earlier=${!:-}
    trap 'rm -rf "$scratch"' EXIT
    trap 'stop HUP 129' HUP
    trap 'stop INT 130' INT
    trap 'stop QUIT 131' QUIT
    trap 'stop TERM 143' TERM
    # Where nobody reads what is said any more, the build goes on all the same.
    trap : PIPE
    scratch=$(mktemp -d 2>/dev/null) || refuse "no temporary folder can be made in ${TMPDIR:-/tmp}, and $(named "$1") is not built"
    for thing; do can_build "$thing"; done
    for thing; do build "$thing"; done
    rm -rf "$scratch"
    trap - EXIT HUP INT QUIT TERM PIPE
}

# build THING: in a session of its own, so that a signal for us does not hit it in the middle and one from us reaches all of it.
build() {
    ended=0
    TMPDIR=$scratch setsid sh "$root/host/launch/build.sh" "$root" "$1" </dev/null >&2 &
    wait "$!" || ended=$?
    earlier=$!
    case $ended in
    0) ;;
    2) exit 2 ;;
    *) refuse "building $(named "$1") ended with status $ended" ;;
    esac
}

# stop SIGNAL STATUS: dies of the signal, as a caller in a loop has to see; a shell reports STATUS for it.
stop() {
    trap '' HUP INT QUIT TERM
    # A number that was waited for may be another process's by now.
    [ "${!:-}" = "$earlier" ] || end_group "$!"
    rm -rf "$scratch"
    # Behind a bar.
    [ ! -t 2 ] || echo >&2
    say "stopped; the next use goes on from here"
    trap - EXIT "$1"
    kill -s "$1" $$
    exit "$2"
}

# end_group NUMBER: until no process of its session is left. One that was started just now is no group yet.
end_group() {
    kill -s TERM -- "-$1" 2>/dev/null || kill -s TERM "$1" 2>/dev/null || :
    tries=100
    while [ "$tries" -gt 0 ] && lives "$1"; do
        [ "$tries" -gt 60 ] || kill -s KILL -- "-$1" "$1" 2>/dev/null || :
        tries=$((tries - 1))
        sleep 0.05
    done
}

# lives NUMBER: whether a process of the session does, in which rt has groups of its own that end with it. One that has ended and is not yet
# reaped, for which init may take its time, does not.
lives() {
    cat /proc/[0-9]*/stat 2>/dev/null | awk -v session="$1" '
        { number = $1; sub(/^.*\) /, "") }
        (number == session || $4 == session) && $1 != "Z" { found = 1 }
        END { exit !found }'
}
