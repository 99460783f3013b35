# build.sh ROOT THING: builds one thing under its lock and installs it. Runs in a session of its own, with a TMPDIR that is removed behind it
# (building.sh).
set -eu
root=$1 thing=$2

. "$root/host/launch/words.sh"
. "$root/host/launch/installed.sh"
. "$root/host/launch/cargo.sh"
. "$root/host/launch/progress.sh"
. "$root/host/launch/make.sh"
# Where nobody reads what is said any more, the build goes on all the same.
trap : PIPE
# A hook of git would have its own folder taken for ours.
unset GIT_DIR GIT_WORK_TREE GIT_INDEX_FILE

# One lock for all programs: most crates are proved for either, and what is missing of one is taken away before it is built again.
case $thing in
command) lock=$store/command.lock what="the command" busy="the command is being built by another use" ;;
*) lock=$store/proofs.lock what="the proved program $thing" busy="a proof is going on in this tree" ;;
esac

# put_in_place FOLDER: where a use looks, whole. One may stand there that has lost what it needs.
put_in_place() {
    old=$store/$thing/old
    rm -rf "$old"
    [ ! -e "$place" ] || mv "$place" "$old"
    mv "$1" "$place"
    rm -rf "$old"
    # The one before stays: a use may have found it, and be about to run it.
    (cd "$store/$thing" && ls -t | tail -n +3 | xargs rm -rf)
}

# make_and_install: with nothing of what an earlier build left, and only where the sources are still those that were looked at.
make_and_install() {
    new=$store/$thing/new began=$(date +%s)
    rm -rf "$new"
    mkdir "$new"
    if [ "$thing" = command ]; then make_command "$new"; else make_program "$thing" "$new"; fi
    usable "$thing" "$new" || refuse "$what is built, and can't be run"
    take_fingerprint "$thing"
    if [ "$place" = "$store/$thing/$fingerprint" ]; then
        put_in_place "$new"
        say "$result and installed, $(as_time $(($(date +%s) - began)))"
    else
        rm -rf "$new"
        say "the sources changed while $what was built, so it is built again"
    fi
}

mkdir -p "$store/$thing"
exec 9>>"$lock"
flock -n 9 || {
    say "$busy, and this use waits for its end"
    flock 9
}
# Closed for all that is started from here, while the shell itself keeps it.
look "$thing" || make_and_install 9>&-
