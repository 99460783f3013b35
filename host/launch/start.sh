# start.sh: the words, one a line, that go before the path of a proved program to start it: the kit's own loader and C library. Where the kit
# can't run a program here it says so and fails.
set -eu
machine=$(uname -m)
if [ "$machine" != x86_64 ]; then
    echo "this machine is $machine, and the Rattle kit here has no emulator for it: proved programs are for x86-64" >&2
    exit 1
fi
guide=$(rt doc 2>/dev/null) || guide=''
libraries=${guide%/*}/toolchain/lib
loader=$libraries/ld-linux-x86-64.so.2
if [ ! -e "$loader" ]; then
    echo "the Rattle kit that rt belongs to has no loader for proved programs" >&2
    exit 1
fi
printf '%s\n' "$loader" --library-path "$libraries"
