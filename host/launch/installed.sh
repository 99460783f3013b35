# Where the command and the proved programs are installed, and whether what stands there is what the sources say. Every use asks this, so
# that nobody else has to be asked; it wants few processes. Sourced, with `root` and `refuse` given.

# Not in a crate's out/, which the gate takes away.
store=$root/.ravundesk
machine=$(uname -m)
command -v sha256sum >/dev/null || refuse "there is no sha256sum here, which tells whether the sources have changed (Debian: coreutils)"

# crates_of PROGRAM: its crate and all those that it stands on, a line each.
crates_of() {
    WANTED=$1 awk -F: '
        function visit(name, deps, count, at) {
            if (!(name in needs) || name in seen) return
            seen[name] = 1
            count = split(needs[name], deps, " ")
            for (at = 1; at <= count; at++) visit(deps[at])
            print name
        }
        # Behind the name may stand what kind of crate it is.
        !/^#/ { sub(/ .*/, "", $1); needs[$1] = $2 }
        END { visit(ENVIRON["WANTED"]) }' "$root/crates.txt"
}

# sums_of THING: a line for each file that it is built from, with the sum of its contents and its name; fails where one can't be read.
sums_of() {
    cd "$root"
    if [ "$1" = command ]; then
        set -- crates/*/src host/Cargo.toml host/Cargo.lock host/native host/command
    else
        crates=$(crates_of "$1")
        set --
        for crate in $crates; do
            for part in src specs proofs; do
                [ ! -d "crates/$crate/$part" ] || set -- "$@" "crates/$crate/$part"
            done
        done
    fi
    find -L crates.txt "$@" -path 'host/*/tests' -prune -o -type f -exec sha256sum {} +
}

# take_fingerprint THING: sets `fingerprint`, one word for its sources. A tree may be carried to another kind of machine, so that counts too.
# Sources that can't be read have one as well, of which nothing is installed.
take_fingerprint() {
    fingerprint=$({ sums_of "$1" 2>/dev/null || echo unread; echo "$machine"; } | LC_ALL=C sort | sha256sum)
    fingerprint=${fingerprint%% *}
}

# look THING: sets `place`, the folder of the thing that the sources say; whether it is installed there.
look() {
    take_fingerprint "$1"
    place=$store/$1/$fingerprint
    usable "$1" "$place"
}

# usable THING FOLDER: whether the folder has all that a use takes. A program is started by files of the kit, which may be gone since.
usable() {
    if [ "$1" = command ]; then
        [ -x "$2/ravundesk" ]
        return
    fi
    [ -x "$2/$1" ] && [ -s "$2/start" ] || return
    while IFS= read -r word; do
        case $word in /*) [ -e "$word" ] || return ;; esac
    done <"$2/start"
}
