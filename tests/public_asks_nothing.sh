# No public function of a library asks anything of its caller: bad input is refused by number, never required away.
# A step on an account, a money sheet or a book in hand is no public entry (document 01, "What the proofs owe"): it may ask that what it is
# given is sound, or that what is seen is seen of sound tables and a sound account, and nothing else. What books a decision may ask that the
# decision rests on what it is booked on, the writer of a change that what is kept can be moved with it, and a posting that what it takes off
# is there and what it adds to has room. Who takes a closure may ask that it can be called with anything.
set -eu
cd "$(dirname "$0")/.."
asks=$(awk '
    BEGIN {
        sound = "Sound tables account|SoundTables tables|SoundSheet sheet|SoundPayout sheet waiting|SoundBook (book|self\\.old)"
        rests = "FiguresTaken tables figures|Rests tables account figures decision|RenewsOn book figures renewal|RestsOn self\\.old figures\\.now ruling"
        seen = "SeenOf (entry|\\(Entry\\.[A-Za-z]+( [a-z]+)*\\)) seen|NumberSees seen|BookSeen stage entry seen"
        room = "Postable (sheet|sheet\\.old) posting|Movable self\\.old change"
        called = "^ *requires \\{ [A-Z]\\.IsAlwaysCallable [a-z]+ \\}$"
        may = "^ *requires ([a-z_]+ )?\\{ ((" sound ")( × (" rests "))?|" seen "|" room ") \\}$"
    }
    FNR == 1 { public = 0; step = FILENAME ~ /^crates\/(account|postings|money|gathering|orders|resting|fills|transfers|day_end|steps|set_up|desk|edges)\// }
    /^ *(pub(\([a-z]+\))? )?(extern "C" )?fn / { public = /^ *pub / }
    public && /^ *requires/ && !(step && $0 ~ may) && $0 !~ called { print FILENAME ":" FNR ": " $0 }
' $(find crates -path '*/out' -prune -o -name '*.rt' -print))
if [ -n "$asks" ]; then
    printf 'a public function with a requires:\n%s\n' "$asks"
    exit 1
fi
echo "public functions ask nothing of their callers; steps ask that account, sheet or book is sound, or what is seen of them, and that a decision, a change or a posting fits it"
