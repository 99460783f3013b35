# What docs/PROMISES.md and docs/DEMANDS.md name stands: a theorem, a definition, a function, a crate, a file, a wrong edit.
# And what stands is named there or cited: every wrong edit, and every theorem that other files could cite and none does.
set -eu
cd "$(dirname "$0")/.."
export LC_ALL=C
work=$(mktemp -d)
trap 'rm -rf "$work"' EXIT

sources() { find crates -path '*/out' -prune -o \( -name '*.antt' -o -name '*.rt' \) -print; }
edits() { find crates -path '*/out' -prune -o -name '*.edit' -exec basename {} .edit \; | sort -u; }

# each word of the sources, with the number of files that have it
sources | tr '\n' '\0' | xargs -0 awk '{
    n = split($0, part, /[ \t(){},;:.`]+|\[|\]/)
    for (i = 1; i <= n; i++) if (!((part[i], FILENAME) in seen)) { seen[part[i], FILENAME] = 1; files[part[i]]++ }
} END { for (word in files) print word, files[word] }' >"$work/words"

# what is quoted outside code blocks: paths by themselves, names without statements, of a function the last part
sed '/^```/,/^```/d' docs/PROMISES.md docs/DEMANDS.md | grep -o '`[^`]*`' | tr -d '`' | grep -v ' ' | sort -u >"$work/quoted"
grep -e '/' -e '\.antt$' "$work/quoted" | grep -v NAME | sed 's|^\./||; s|/$||' >"$work/paths"
grep -v -e '/' -e '\.antt$' -e ':$' "$work/quoted" | sed 's/.*:://' | sort -u >"$work/named"

{
    cut -d ' ' -f 1 "$work/words"
    ls crates
    sources | sed 's|.*/||; s|\.antt$||'
    edits
} | sort -u | comm -23 "$work/named" - | sed 's/^/named, and not there: /' >"$work/wrong"
while read -r path; do
    [ -n "$(find . -path '*/out' -prune -o -path "*/$path" ! -path '*/target/*' -print | head -n 1)" ] || echo "named, and not there: $path"
done <"$work/paths" >>"$work/wrong"
edits | comm -23 - "$work/named" | sed 's/^/a wrong edit that is not named: /' >>"$work/wrong"

sed -n 's/ 1$//p' "$work/words" | sort >"$work/once"
sources | grep '/proofs/.*\.antt$' | grep -v -e '/proofs/.*/\(Proof\|Answers\|Invariants\)\.antt$' | tr '\n' '\0' | xargs -0 awk '
    FNR == 1 || /^$/ { fields = 0 }
    /^ *(pub )?(record|data) / { fields = 1 }
    !fields && /^ *pub [^ ]+ :/ { print $2 }
' | sort -u | comm -12 - "$work/once" | comm -23 - "$work/named" | sed 's/^/a theorem that is neither cited nor promised: /' >>"$work/wrong"

if [ -s "$work/wrong" ]; then
    cat "$work/wrong"
    exit 1
fi
echo "the $(wc -l <"$work/named") names that docs/PROMISES.md and docs/DEMANDS.md give stand, and all that is promised is named"
