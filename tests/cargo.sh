# Calls cargo on the second working, with Debian's own where there is none, in the profile that PROFILE names or else in release. Nothing is
# fetched: no crate comes from a registry.
set -eu
cd "$(dirname "$0")/../host"
. launch/words.sh
. launch/cargo.sh
get_cargo
exec cargo "$@" --profile "${PROFILE:-release}" --offline --quiet
