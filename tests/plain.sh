# The second working: its own tests, which hold it to the stored answers of `cases`, `edges`, `runs` and `expiry` too; and those that hold
# the crates' source, as rustc compiles it, and the version that is written for speed to it.
set -eu
cd "$(dirname "$0")/.."
said=$(sh tests/cargo.sh test 2>&1) || {
    printf '%s\n' "$said"
    exit 1
}
echo "the examples' answers are the documents'"
