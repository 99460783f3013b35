# What the tests of ./ravundesk share. Sourced.

fail() {
    printf './ravundesk: %s\n' "$1"
    for file in "$place/out" "$place/err"; do
        [ ! -s "$file" ] || { printf '%s:\n' "${file##*/}" && cat "$file"; }
    done
    exit 1
}

# use COMMAND..: what it prints is in out and what it says in err; sets `got`, its status.
use() {
    got=0
    "$@" >"$place/out" 2>"$place/err" </dev/null || got=$?
}

# answers COMMAND..: as one that runs to its end does; the finished command has status 1 for a book with a refused record.
answers() {
    use "$@"
    [ "$got" -le 1 ] || fail "status $got of $*"
    [ -s "$place/out" ] || fail "nothing printed by $*"
}

# silent COMMAND..: answers, and nothing is said besides.
silent() {
    answers "$@"
    [ ! -s "$place/err" ] || fail "something said by $*"
}

# refuses WORDS COMMAND..: one line on standard error, none on standard output, status 2.
refuses() {
    words="ravundesk: $1"
    shift
    use "$@"
    [ "$got" = 2 ] || fail "status $got and not 2 with: $words"
    [ ! -s "$place/out" ] || fail "something printed besides: $words"
    [ "$(cat "$place/err")" = "$words" ] || fail "not said: $words"
}

# said PATTERN COUNT: how many lines of err have it.
said() {
    count=$(grep -c "$1" "$place/err") || :
    [ "$count" = "$2" ] || fail "$count lines and not $2 with: $1"
}

# toolbox NAME TOOLS..: a folder with those tools alone, to be the PATH.
toolbox() {
    box=$place/$1
    shift
    mkdir "$box"
    for tool; do ln -s "$(command -v "$tool")" "$box/$tool"; done
}

# no_process_in FOLDER: none runs in it or names it. The name is read from a file, so that the search does not find itself.
no_process_in() {
    printf '%s' "$1" >"$place/name"
    found=$(grep -l -a -F -f "$place/name" /proc/[0-9]*/cmdline 2>/dev/null) || :
    found=$found$(find /proc -maxdepth 2 -path '/proc/[0-9]*/cwd' -lname "$1*" 2>/dev/null) || :
    [ -z "$found" ] || fail "left behind: $(for file in $found; do tr '\0' ' ' <"${file%/*}/cmdline"; done 2>/dev/null)"
}
