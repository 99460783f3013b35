# archive.sh: the static library that programs in C and Rust link, target/staticlib/libarchive.a, from the proved crate `archive_c`.
set -eu
cd "$(dirname "$0")/.."
said=$(cd crates/archive_c && rt lib 2>&1) || {
    printf '%s\n' "$said"
    exit 1
}
mkdir -p target/staticlib
cp crates/archive_c/out/libarchive_c.a target/staticlib/libarchive.a
