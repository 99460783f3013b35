# bench.sh [--quick]: compares the answers of all versions and times them over the same bytes, optimised alike; prints the tables and draws
# docs/performance.svg. On x86-64, the one machine whose programs can link it, the proved archive is a version too. With --quick a few
# rounds are run and nothing is drawn, to see that the answers agree.
set -eu
cd "$(dirname "$0")/.."
if [ "$(uname -m)" = x86_64 ] && command -v rt >/dev/null; then sh tests/archive.sh; fi
PROFILE=speed sh tests/cargo.sh build --package bench
exec host/target/speed/bench "${1:-docs/performance.svg}"
