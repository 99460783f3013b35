# The command ./ravundesk up to where the program itself takes over: what it builds and installs, once and by one at a time, how it is stopped,
# and what it says where it can't. Builds are tried in a small tree, whose proofs take seconds; uses in this tree.
set -eu
cd "$(dirname "$0")/.."
root=$PWD
place=$(mktemp -d)
trap 'rm -rf "$place"' EXIT
# Another user has to get in, to try a tree that is not his.
chmod 755 "$place"
small="$place/a small tree"
export TMPDIR="$place/tmp"
mkdir -m 1777 "$TMPDIR"

. tests/launch/tools.sh
. tests/launch/small_tree.sh
. tests/launch/builds.sh
. tests/launch/stops.sh
. tests/launch/refusals.sh
. tests/launch/uses.sh

make_small_tree
two_first_uses
changes
second_program
stops
refusals
uses
[ -z "$(ls -A "$TMPDIR")" ] || fail "something is left in the temporary folder: $(ls -A "$TMPDIR")"
echo "./ravundesk builds once what a verb needs, one at a time, leaves nothing behind when it is stopped, and says in one line why it can't run"
