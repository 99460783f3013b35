# expiry.sh COUNT SEED: asks the program `expiry` COUNT random questions near the edges and holds its answers to the second working, and
# every assignment to what is stated of it. The same seed makes the same questions. The program runs in 128 KiB of stack (docs/STACK.md).
set -eu
export STACK_KIB=128
exec sh "$(dirname "$0")/trial.sh" expiry expiry "$1" "$2"
