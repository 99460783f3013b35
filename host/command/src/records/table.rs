//! The table of records: for each kind its line of text and its fields, in the order of their bytes. A kind to come is a row more.

use native::terms::Measure;

pub struct Row {
    pub kind: u16,
    /// The record as a line. Words in small letters stand as they are; one in capitals is the field of that name, with whatever stands
    /// before the capitals before it; `..` says that there may be several.
    pub text: &'static str,
    pub about: &'static str,
    pub fields: &'static [Field],
}

pub struct Field {
    pub name: &'static str,
    /// In bytes.
    pub width: usize,
    pub form: Form,
    pub within: Within,
    pub times: Times,
}

/// How the field's number is written.
#[derive(Clone, Copy)]
pub enum Form {
    Whole,
    Price,
    Money,
    Word(Words),
}

/// What the field's number has to be where its record is booked.
#[derive(Clone, Copy)]
pub enum Within {
    Anything,
    Range(Measure),
    Unit,
    /// In the tables, as the number of a contract or of an underlying.
    Contract,
    Underlying,
    /// As many as the tables have of them.
    AllContracts,
    AllUnderlyings,
}

#[derive(Clone, Copy, PartialEq, Eq)]
pub enum Times {
    Once,
    /// As often as the field of this place says, which no line spells.
    Counted(usize),
}

const fn field(name: &'static str, width: usize, form: Form, within: Within) -> Field {
    Field {
        name,
        width,
        form,
        within,
        times: Times::Once,
    }
}

const fn whole(name: &'static str, width: usize, within: Within) -> Field {
    field(name, width, Form::Whole, within)
}

const fn price(name: &'static str, measure: Measure) -> Field {
    field(name, 4, Form::Price, Within::Range(measure))
}

const fn money(name: &'static str, measure: Measure) -> Field {
    field(name, 8, Form::Money, Within::Range(measure))
}

const fn word(name: &'static str, words: Words) -> Field {
    field(name, 2, Form::Word(words), Within::Anything)
}

const fn prices(name: &'static str, measure: Measure, count: usize) -> Field {
    Field {
        times: Times::Counted(count),
        ..price(name, measure)
    }
}

/// Words of codes, from 1 on.
pub type Words = &'static [&'static str];

pub const CLASSES: Words = &["stock", "fund"];

pub const RIGHTS: Words = &["call", "put"];

pub const ORDER_KINDS: Words = &[
    "buy-open",
    "sell-close",
    "sell-open",
    "buy-close",
    "covered-open",
    "covered-close",
];

const AMOUNT: Field = money("amount", Measure::Transfer);
const UNDERLYING: Field = whole("underlying", 2, Within::Underlying);
const UNITS: Field = whole("units", 4, Within::Range(Measure::UnitsAtOnce));
const NUMBER: Field = whole("number", 4, Within::Anything);
const QUANTITY: Field = whole("quantity", 4, Within::Range(Measure::Quantity));
const PRICE: Field = price("price", Measure::Price);
const CLOSE: Field = price("close", Measure::Price);
const LIMIT: Within = Within::Range(Measure::Limit);

/// In the order of a book: set-up first.
pub const ROWS: &[Row] = &[
    Row {
        kind: 16,
        text: "underlying CLASS close CLOSE rights RIGHTS total TOTAL daily DAILY",
        about:
            "an underlying: its prior close and its three limits; it takes the next number from 0",
        fields: &[
            word("class", CLASSES),
            CLOSE,
            whole("rights", 2, LIMIT),
            whole("total", 2, LIMIT),
            whole("daily", 2, LIMIT),
        ],
    },
    Row {
        kind: 17,
        text: "contract RIGHT on UNDERLYING strike STRIKE unit UNIT settlement SETTLEMENT",
        about: "a contract on an underlying; it takes the next number from 0",
        fields: &[
            UNDERLYING,
            word("right", RIGHTS),
            price("strike", Measure::Price),
            whole("unit", 4, Within::Unit),
            price("settlement", Measure::Settlement),
        ],
    },
    Row {
        kind: 18,
        text: "open CASH",
        about: "the account is opened with so much cash",
        fields: &[money("cash", Measure::OpeningCash)],
    },
    Row {
        kind: 1,
        text: "deposit AMOUNT",
        about: "money is paid in",
        fields: &[AMOUNT],
    },
    Row {
        kind: 2,
        text: "withdraw AMOUNT",
        about: "a payout is asked for: it is held, and waits",
        fields: &[AMOUNT],
    },
    Row {
        kind: 9,
        text: "pay",
        about: "the payout that waits is paid from cash",
        fields: &[],
    },
    Row {
        kind: 10,
        text: "drop",
        about: "the payout that waits is dropped",
        fields: &[],
    },
    Row {
        kind: 3,
        text: "lock UNITS on UNDERLYING",
        about: "units of an underlying are locked as cover",
        fields: &[UNDERLYING, UNITS],
    },
    Row {
        kind: 4,
        text: "unlock UNITS on UNDERLYING",
        about: "spare units are released",
        fields: &[UNDERLYING, UNITS],
    },
    Row {
        kind: 5,
        text: "order NUMBER KIND CONTRACT xQUANTITY @PRICE",
        about: "an order, which rests if it is accepted",
        fields: &[
            NUMBER,
            whole("contract", 2, Within::Contract),
            word("kind", ORDER_KINDS),
            QUANTITY,
            PRICE,
        ],
    },
    Row {
        kind: 6,
        text: "fill NUMBER xQUANTITY @PRICE",
        about: "a resting order fills, in part or whole",
        fields: &[NUMBER, QUANTITY, PRICE],
    },
    Row {
        kind: 7,
        text: "cancel NUMBER",
        about: "a resting order is cancelled",
        fields: &[NUMBER],
    },
    Row {
        kind: 8,
        text: "day-end settlements SETTLEMENTS.. closes CLOSES..",
        about: "the day ends: a settlement for each contract, a close for each underlying",
        fields: &[
            whole("n", 2, Within::AllContracts),
            whole("m", 2, Within::AllUnderlyings),
            prices("settlements", Measure::Settlement, 0),
            prices("closes", Measure::Price, 1),
        ],
    },
];

/// The word of a listed code.
pub fn word_of(words: Words, code: u16) -> &'static str {
    words[usize::from(code) - 1]
}

pub fn row(kind: u16) -> Option<&'static Row> {
    ROWS.iter().find(|row| row.kind == kind)
}

impl Row {
    /// The word that the line begins with.
    pub fn first_word(&self) -> &'static str {
        self.text.split(' ').next().unwrap_or(self.text)
    }

    /// The place of a field of this name, whatever the letters' size.
    pub fn place(&self, name: &str) -> usize {
        let named = |field: &Field| field.name.eq_ignore_ascii_case(name);
        let place = self.fields.iter().position(named);
        place.expect("a line's fields are the row's")
    }

    /// Whether another field of the row is there as often as this one says.
    pub fn counts(&self, place: usize) -> bool {
        self.fields
            .iter()
            .any(|field| field.times == Times::Counted(place))
    }
}

impl Field {
    /// The largest number that it has room for.
    pub fn most(&self) -> u64 {
        u64::MAX >> (64 - 8 * self.width)
    }

    /// The range that its number has to be in, wherever that is a matter of the number alone.
    pub fn measure(&self) -> Option<Measure> {
        match self.within {
            Within::Range(measure) => Some(measure),
            Within::Unit => Some(Measure::Unit),
            Within::AllContracts => Some(Measure::Contracts),
            Within::AllUnderlyings => Some(Measure::Underlyings),
            Within::Anything | Within::Contract | Within::Underlying => None,
        }
    }
}
