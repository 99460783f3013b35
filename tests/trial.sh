# trial.sh TRIAL PROGRAM COUNT SEED: has a trial of host/trials try a proved program; what is not built yet is built first.
set -eu
cd "$(dirname "$0")/.."
[ -x "crates/$2/out/$2" ] || (cd "crates/$2" && rt run </dev/null >/dev/null)
sh tests/cargo.sh build
exec "host/target/release/$1" "$3" "$4" sh tests/program.sh "$2"
