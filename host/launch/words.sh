# What the launcher says, one line each on standard error. Sourced.

say() { printf 'ravundesk: %s\n' "$*" >&2 || :; }

refuse() {
    say "$@"
    exit 2
}
