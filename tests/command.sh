# The command as people use it, and misuse it: what each verb prints, says and exits with. What is built for it is held in launch.sh.
set -eu
cd "$(dirname "$0")/.."
root=$PWD
place=$(mktemp -d)
trap 'rm -rf "$place"' EXIT
exec </dev/null

fail() {
    printf 'ravundesk: %s\n' "$1"
    for file in out err; do sed "s/^/  $file: /" "$place/$file" | head -n 5; done
    exit 1
}

# call STATUS ARGUMENTS..: what it prints and says is kept.
call() {
    status=$1 got=0
    shift
    "$root/ravundesk" "$@" >"$place/out" 2>"$place/err" || got=$?
    [ "$got" = "$status" ] || fail "status $got and not $status: $*"
}

# refuses WORDS ARGUMENTS..: exit status 2, one line, nothing printed.
refuses() {
    words=$1
    shift
    call 2 "$@"
    [ ! -s "$place/out" ] || fail "something is printed: $*"
    [ "$(cat "$place/err")" = "ravundesk: $words" ] || fail "not said: $words"
}

says() {
    [ "$(cat "$place/err")" = "ravundesk: $1" ] || fail "not said: $1"
}

prints() {
    [ "$(cat "$place/out")" = "$1" ] || fail "not printed: $1"
}

# The lines that examples/README.md has for a book.
told() {
    sed -n "/^## $1\$/,/^## /s/.*\`\\(.*\\)\` |\$/\\1/p" "$root/examples/README.md"
}

# status NAME: of an example's run.
status() {
    case $1 in
    refusals) echo 3 ;;
    *) echo 1 ;;
    esac
}

# What has to be built is built, and told of, before anything is held to what is said.
for verb in book expiry; do
    ./ravundesk "$verb" </dev/null 2>"$place/built" || {
        cat "$place/built"
        exit 1
    }
done

# The proved program's lines are those told by hand, and so are the source's; a book's text is the book.
for name in day refusals payout; do
    told "$name.book" >"$place/told"
    [ -s "$place/told" ] || fail "no lines told for $name.book"
    call "$(status "$name")" book "examples/$name.book"
    cmp "$place/out" "$place/told" || fail "book: other lines than those told for $name.book"
    [ ! -s "$place/err" ] || fail "book: something is said"
    call "$(status "$name")" book <"examples/$name.book"
    cmp "$place/out" "$place/told" || fail "book, by standard input: other lines than those told for $name.book"
    for form in book txt; do
        call "$(status "$name")" run --lines "examples/$name.$form"
        cmp "$place/out" "$place/told" || fail "run: other lines than those told for $name.$form"
    done
done
for name in day refusals payout full; do
    call 0 write "examples/$name.txt" --to "$place/written.book"
    cmp "$place/written.book" "examples/$name.book" || fail "examples/$name.txt is not examples/$name.book"
done

# Files that can't be read, and how it is called.
cd "$place"
mkdir "days of may"
for verb in run account show write book expiry; do
    refuses "there is no file day.book" "$verb" day.book
    refuses "days of may is a directory" "$verb" "days of may"
done
refuses "a verb is missing; \`ravundesk help\` lists them"
refuses "there is no verb \`rum\`; the verbs are run, account, write, show, book, expiry, refusals, records, version, help" rum
refuses "run: it has no option --all; usage: ravundesk run [FILE] [--refused | --lines | --quiet] [--text | --records]" run --all
refuses "show: \`b\` is one operand too many; usage: ravundesk show [BOOK]" show a b
refuses "refusals: \`a\` is one operand too many; usage: ravundesk refusals [--markdown]" refusals a
refuses "--refused and --quiet exclude each other" run --quiet --refused
refuses "--csv and --json exclude each other" account --json --csv
refuses "account: --after takes a number of records; usage: ravundesk account [FILE] [--after N] [--csv | --json] [--text | --records]" account --after
refuses "--after takes a number of records, and not \`-1\`" account --after -1
refuses "there is no record 11, only 10" account --after 11 "$root/examples/day.book"
refuses "run: --quiet takes no value; usage: ravundesk run [FILE] [--refused | --lines | --quiet] [--text | --records]" run --quiet=1
for verb in run account write show book expiry refusals records version help; do
    call 0 "$verb" --help
    call 0 help "$verb"
    grep -q "^usage: ravundesk $verb" out || fail "no help on $verb"
done
call 0 --help
call 0 version
grep -q '^ravundesk [0-9]' out || fail "no version"

# A file whose name begins with a dash or has blanks, from another folder.
cp "$root/examples/day.book" "./-a day.book"
call 1 run --quiet -- "-a day.book"
prints "10 records, 9 accepted, 1 refused; available 5940.00"

# Nothing, zeros, text, and more than the program reads.
: >empty
head -c 100 /dev/zero >zeros
head -c 70000 /dev/zero | tr '\0' '\377' >long
for verb in run book expiry show write; do
    call 0 "$verb" empty
    prints ""
done
call 3 run zeros
grep -q 'STOPPED 2: kind not in the table of records; kind 0,' out || fail "zeros: not told"
call 3 book zeros
prints "1 2 0"
call 3 book "$root/examples/day.txt"
prints "1 2 0"
says "$root/examples/day.txt looks like text, and book reads records alone; \`run\` reads both"
call 3 show "$root/examples/day.txt"
says "$root/examples/day.txt looks like text; \`write\` makes a book of it"
call 3 book long
says "long has more than 65536 bytes, and the rest is not read; \`run\` reads it all"
for i in 1 2 3 4 5 6 7 8; do cat "$root/examples/full.book"; done >eight
# The last byte that is read lies within a record.
call 3 book eight
says "eight has more than 65536 bytes, and the rest is not read; \`run\` reads it all"
lines=$(wc -l <out)
call 1 run --lines eight
[ "$lines" -lt "$(wc -l <out)" ] || fail "run does not read all of a long book"

# A terminal is no place for bytes.
got=0
script -qec "'$root/ravundesk' write '$root/examples/day.txt'" /dev/null >out 2>&1 </dev/null || got=$?
[ "$got" = 2 ] || fail "status $got of a book written to a terminal"
grep -q "^ravundesk: a book is bytes, which a terminal can't show: write it to a file, with > FILE or --to FILE" out || fail "a terminal is shown a book"

# A wrong line: its file, its number, the word, what would be right; nothing is written, and what was there stays.
printf 'open 6000.00\norder 1 sell_open 0 x2 @0.05\n' >wrong.txt
echo before >kept
refuses "wrong.txt:2: \`sell_open\`: kind is one of buy-open sell-close sell-open buy-close covered-open covered-close (order NUMBER KIND CONTRACT xQUANTITY @PRICE)" \
    write wrong.txt --to kept
[ "$(cat kept)" = before ] || fail "a wrong text is written"
call 2 run wrong.txt
[ "$(wc -l <out)" = 1 ] || fail "the lines before a wrong one are not answered"
refuses "nowhere/day.book can't be written: no such file or directory" write "$root/examples/day.txt" --to nowhere/day.book

# Questions: the worst answer has the status, and a line that is none does not keep the others from theirs.
told expiry.txt >told
[ -s told ] || fail "no lines told for expiry.txt"
sed 's/$/\r/' "$root/examples/expiry.txt" >returns.txt
for file in "$root/examples/expiry.txt" returns.txt; do
    call 1 expiry "$file"
    cmp out told || fail "expiry: other lines than those told for expiry.txt"
    [ ! -s err ] || fail "expiry: something is said"
    call 1 expiry <"$file"
    cmp out told || fail "expiry, by standard input: other lines than those told for expiry.txt"
done
printf '\t# Nothing is asked in the first three lines.\n \t\n\nassign 1 1 0\nassign one 1 0\n assign\t2  1 0 \nassign 1 0 1' >wrong.txt
call 2 expiry wrong.txt
prints "0 0 1
unreadable 5
4
0 1 0"
says "wrong.txt has 1 line that can't be read; a question is \`exercise RIGHT STRIKE UNIT LONG SHORT COVERED COUNT OFFERED\` or \`assign E SHORT COVERED ..\`"
for file in zeros long; do
    call 2 expiry "$file"
    prints "unreadable 1"
done
seq 1 6000 | sed 's/.*/assign & & 0/' >many.txt
[ "$(wc -c <many.txt)" -gt 65536 ] || fail "many.txt is short"
call 0 expiry many.txt
seq 1 6000 | sed 's/^/0 0 /' | cmp - out || fail "expiry: other answers to many questions"

# In a pipe: each question is answered before the next is asked, and when nobody reads the answers any more, nobody waits for questions.
mkfifo questions
"$root/ravundesk" expiry <questions >out 2>err &
exec 3>questions
for count in 1 2 3; do
    echo "assign $count 9 0" >&3
    tries=600
    until [ "$(wc -l <out)" = "$count" ]; do
        tries=$((tries - 1))
        [ "$tries" -gt 0 ] || fail "expiry: question $count is not answered while the pipe is open"
        sleep 0.05
    done
done
exec 3>&-
wait "$!" || fail "status $? of questions in a pipe"
yes 'assign 1 1 0' | {
    got=0
    "$root/ravundesk" expiry 2>err || got=$?
    echo "$got" >status
} | head -n 1 >out
prints "0 0 1"
[ "$(cat status)" = 2 ] || fail "expiry: status $(cat status) with a reader that is gone"
says "standard output was closed before all was written"

# Output that can't be written.
for verb in run account show book expiry; do
    case $verb in expiry) file=expiry.txt ;; *) file=day.book ;; esac
    got=0
    "$root/ravundesk" "$verb" "$root/examples/$file" >/dev/full 2>err || got=$?
    [ "$got" = 2 ] || fail "$verb: status $got with a full disk"
    says "standard output can't be written: no space left on device"
    got=0
    "$root/ravundesk" "$verb" "$root/examples/$file" >&- 2>err || got=$?
    [ "$got" = 2 ] || fail "$verb: status $got with standard output closed"
    says "standard output is closed"
done
# Input that is closed matters where it would be read.
for verb in run account show write book expiry; do refuses "standard input is closed" "$verb" - <&-; done
call 1 run --quiet "$root/examples/day.book" <&-
{
    got=0
    "$root/ravundesk" run eight 2>err || got=$?
    echo "$got" >status
} | true
[ "$(cat status)" = 2 ] || fail "status $(cat status) with a reader that is gone"
says "standard output was closed before all was written"

# A file that may not be read, where there is another user to be, who need not get into this tree.
(cd "$root" && sh tests/cargo.sh build)
if [ "$(id -u)" = 0 ]; then
    chmod 755 "$place"
    cp "$root/host/target/release/ravundesk" command
    cp "$root/examples/day.book" mine && chmod 600 mine
    got=0
    setpriv --reuid=65534 --regid=65534 --clear-groups ./command run mine >out 2>err || got=$?
    [ "$got" = 2 ] || fail "status $got with a file that may not be read"
    says "mine can't be read: permission denied"
fi

# The lines of the proved source are those that the proved program is held to, on the same books (books.sh).
cd "$root"
host/target/release/books 40 1 sh -c 'head -c 65536 | "$0" run --lines --records 2>/dev/null; [ $? != 2 ]' host/target/release/ravundesk

# The documents' lists are the command's own.
{
    sed -n '1,/^## Records/p' "$root/docs/RECORDS.md"
    echo
    "$root/ravundesk" records --markdown
    printf '\n## Refusals\n\n'
    "$root/ravundesk" refusals --markdown
} | cmp - "$root/docs/RECORDS.md" || fail "docs/RECORDS.md is not what the command lists"
echo "every verb prints the examples' answers, and says in one line what is wrong"
