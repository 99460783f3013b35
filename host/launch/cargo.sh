# cargo, or for root where there is none Debian's own. Sourced, with `say` and `refuse` given.

can_get_cargo() {
    command -v cargo >/dev/null && return
    if [ "$(id -u)" = 0 ] && command -v apt-get >/dev/null; then return; fi
    refuse "there is no cargo here, which builds what is in Rust: install it (Debian: cargo)"
}

get_cargo() {
    command -v cargo >/dev/null && return
    can_get_cargo
    say "there is no cargo here: Debian's is installed first, which takes a minute or two"
    said=$(export DEBIAN_FRONTEND=noninteractive && apt-get -qq update 2>&1 && apt-get -qq install -y cargo 2>&1) || {
        printf '%s\n' "$said" >&2
        refuse "Debian's cargo can't be installed"
    }
}
