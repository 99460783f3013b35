//! The verbs: one table, from which they are found and helped with.

use crate::account;
use crate::arguments::{Asked, Choice, Verb};
use crate::output::Output;
use crate::records::list;
use crate::run::run;
use crate::text::{show, write};
use crate::trouble::{Outcome, Status, Trouble};
use crate::version::version;
use crate::{book, expiry, refusals};

const fn choice(name: &'static str, about: &'static str) -> Choice {
    Choice {
        name,
        value: None,
        about,
    }
}

const TEXT: Choice = choice("--text", "the input is text, however it looks");
const RECORDS: Choice = choice("--records", "the input is records, however it looks");
const MARKDOWN: Choice = choice("--markdown", "a table for documents");

pub const VERBS: &[Verb] = &[
    Verb {
        name: "run",
        usage: "run [FILE] [--refused | --lines | --quiet] [--text | --records]",
        about: "answers a book, a line for each record, with the reason of each refusal",
        help: "\
FILE is a book as records or as text, of any length. Without one standard input is
read, and each record is answered as soon as it is whole.
A line has the record's number, the record in words, and what is available after
it, in yuan. A refusal has its number, its meaning and the figures that it was
judged by.",
        options: &[
            choice("--refused", "only the lines of refused records"),
            choice(
                "--lines",
                "bare lines: number, refusal or 0, available in fen",
            ),
            choice("--quiet", "only a summary"),
            TEXT,
            RECORDS,
        ],
        operands: 1,
        run,
    },
    Verb {
        name: "account",
        usage: "account [FILE] [--after N] [--csv | --json] [--text | --records]",
        about: "shows the account after the last record, or after the Nth",
        help: "\
FILE is a book as records or as text. Without one standard input is read to its end.
Money and prices are in yuan, positions and limits in contracts, locked and spare in
units of the underlying.",
        options: &[
            Choice {
                name: "--after",
                value: Some(("N", "a number of records")),
                about: "after so many records",
            },
            choice(
                "--csv",
                "comma-separated: section, row, field, value, measure",
            ),
            choice("--json", "one JSON object"),
            TEXT,
            RECORDS,
        ],
        operands: 1,
        run: account::account,
    },
    Verb {
        name: "write",
        usage: "write [TEXT] [--to BOOK]",
        about: "makes a book of text, a line for each record",
        help: "\
TEXT is a file. Without one standard input is read. `ravundesk records` lists the
lines; `#` begins a remark, `raw` stands before bytes that are no record.
Where a line is wrong, its number and what would be right are told, and nothing is
written.",
        options: &[Choice {
            name: "--to",
            value: Some(("BOOK", "a file's name")),
            about: "the file to write, whole or not at all; else standard output",
        }],
        operands: 1,
        run: write,
    },
    Verb {
        name: "show",
        usage: "show [BOOK]",
        about: "shows a book as text, which `write` makes the same book of",
        help: "\
BOOK is a file of records. Without one standard input is read. Bytes that are no
record are shown as `raw` lines, with the reason before them.",
        options: &[],
        operands: 1,
        run: show,
    },
    Verb {
        name: "book",
        usage: "book [FILE]",
        about: "runs the proved program itself, which prints bare lines",
        help: "\
FILE is a book as records, of which the first 65,536 bytes are read. Without one
standard input is read.
A line has the record's number, 0 or the refusal's, and what is available after it,
in fen. The first use proves and builds the program, which takes some minutes and
needs the Rattle toolchain.",
        options: &[],
        operands: 1,
        run: book::book,
    },
    Verb {
        name: "expiry",
        usage: "expiry [FILE]",
        about: "answers an expiry evening's questions, by the proved program",
        help: "\
FILE is text of any length, a question on a line. Without one standard input is
read, and each question is answered as soon as its line is whole. A line that begins
with `#` is a remark.

exercise RIGHT STRIKE UNIT LONG SHORT COVERED COUNT OFFERED
  asks whether COUNT contracts can be exercised from a position, which is netted
  first. RIGHT is call or put, STRIKE in 0.0001 yuan, UNIT in units of the underlying,
  LONG, SHORT, COVERED and COUNT in contracts; OFFERED is in fen for a call, in units
  of the underlying for a put. The answer is 0 or the refusal's number:
  `exercise call 26000 10000 5 2 0 3 7800000` is answered `0`.
assign E SHORT COVERED ..
  assigns E exercised contracts to up to 256 accounts, each with the short and the
  covered contracts that it has after netting. The answer is 0 and for each account
  the covered and the short contracts assigned to it, or the refusal's number:
  `assign 7176 1700 0 2500 0 1900 0 1900 0` is answered
  `0 0 1525 0 2243 0 1704 0 1704`.

`unreadable N` answers line N where it is neither. `ravundesk refusals` lists the
refusals. The first use proves and builds the program, which takes a minute or two
and needs the Rattle toolchain.",
        options: &[],
        operands: 1,
        run: expiry::expiry,
    },
    Verb {
        name: "refusals",
        usage: "refusals [--markdown]",
        about: "lists the refusals by number, and what each means",
        help: "",
        options: &[MARKDOWN],
        operands: 0,
        run: |asked, output| listed(asked, output, refusals::text, refusals::markdown),
    },
    Verb {
        name: "records",
        usage: "records [--markdown]",
        about: "lists the records: their lines of text, their bytes",
        help: "",
        options: &[MARKDOWN],
        operands: 0,
        run: |asked, output| listed(asked, output, list::text, list::markdown),
    },
    Verb {
        name: "version",
        usage: "version",
        about: "tells what is installed, and what it was built from",
        help: "",
        options: &[],
        operands: 0,
        run: version,
    },
    Verb {
        name: "help",
        usage: "help [VERB]",
        about: "tells how the command, or a verb of it, is used",
        help: "",
        options: &[],
        operands: 1,
        run: help,
    },
];

pub fn verb(name: &str) -> Result<&'static Verb, Trouble> {
    let found = VERBS.iter().find(|verb| verb.name == name);
    let names = || VERBS.iter().map(|verb| verb.name).collect::<Vec<_>>();
    found.ok_or_else(|| {
        let names = names().join(", ");
        Trouble(format!("there is no verb `{name}`; the verbs are {names}"))
    })
}

fn help(asked: &Asked, output: &mut Output) -> Outcome {
    match asked.operand() {
        Some(name) => output.put(help_on(verb(name)?))?,
        None => output.put(help_text())?,
    }
    Ok(Status::Accepted)
}

pub fn help_text() -> String {
    let mut text = "ravundesk: an order check and margin book for option brokers\n\n".to_string();
    text += "usage: ravundesk VERB ..\n\n";
    for verb in VERBS {
        text += &format!("  {:9} {}\n", verb.name, verb.about);
    }
    text += "\n`ravundesk VERB --help` says more of a verb.\n\n";
    text + STATUSES
}

const STATUSES: &str = "\
exit status, of every verb:
  0  all accepted
  1  some record or question refused
  2  wrong usage, or a line or file that can't be read or written
  3  the run stopped at a record that can't be read
";

pub fn help_on(verb: &Verb) -> String {
    let mut text = format!("usage: ravundesk {}\n\n", verb.usage);
    text += &format!("ravundesk {} {}.\n", verb.name, verb.about);
    if !verb.help.is_empty() {
        text += &format!("{}\n", verb.help);
    }
    if !verb.options.is_empty() {
        text += "\n";
    }
    for choice in verb.options {
        let name = match choice.value {
            Some((sign, _)) => format!("{} {sign}", choice.name),
            None => choice.name.to_string(),
        };
        text += &format!("  {name:11} {}\n", choice.about);
    }
    text + "\n" + STATUSES
}

fn listed(
    asked: &Asked,
    output: &mut Output,
    text: fn() -> String,
    markdown: fn() -> String,
) -> Outcome {
    let list = if asked.has("--markdown") {
        markdown()
    } else {
        text()
    };
    output.put(list)?;
    Ok(Status::Accepted)
}
