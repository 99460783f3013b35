# random.sh COUNT SEED: makes COUNT random entries near the edges and holds the program `edges` to the second working, verdict and
# account after each. The same seed makes the same entries.
set -eu
exec sh "$(dirname "$0")/trial.sh" random edges "$1" "$2"
