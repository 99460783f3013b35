//! The refusals by number, and what each means.

pub struct Refusal {
    pub number: u8,
    pub meaning: &'static str,
    /// Which records meet it, or where else it is given.
    pub met: &'static str,
}

const fn refusal(number: u8, meaning: &'static str, met: &'static str) -> Refusal {
    Refusal {
        number,
        meaning,
        met,
    }
}

pub const REFUSALS: &[Refusal] = &[
    refusal(1, "record cut short", "any; the run stops"),
    refusal(2, "kind not in the table of records", "any; the run stops"),
    refusal(
        3,
        "length, counts or a code don't fit the kind",
        "any; the run stops",
    ),
    refusal(
        4,
        "a value outside its range or not in the tables",
        "any with values; expiry: exercise, assign",
    ),
    refusal(5, "record out of its place", "any"),
    refusal(6, "order number not above the last accepted", "order"),
    refusal(7, "no such order rests", "fill, cancel"),
    refusal(8, "no place is free for another order", "order"),
    refusal(9, "position too small to close", "order: closes"),
    refusal(10, "rights limit passed", "order: buy-open"),
    refusal(11, "total limit passed", "order: opens"),
    refusal(12, "daily limit passed", "order: buy-open"),
    refusal(13, "spare units too few", "order: covered-open; unlock"),
    refusal(
        14,
        "more than is available",
        "order: buys and sell-open; withdraw",
    ),
    refusal(15, "a ceiling passed", "deposit, lock; fill of a sell"),
    refusal(
        16,
        "fill above the remainder, or at a price the order bars",
        "fill",
    ),
    refusal(
        17,
        "lent buffer shorter than what is written",
        "writing a record, assigning; in no run, in no line of expiry",
    ),
    refusal(18, "unused", "nothing"),
    refusal(19, "no payout waits", "pay, drop"),
    refusal(20, "a payout waits already", "withdraw"),
    // 21 is not given to anything yet.
    refusal(22, "long after netting below the count", "expiry: exercise"),
    refusal(
        23,
        "means below what the exercise takes",
        "expiry: exercise",
    ),
];

pub fn meaning(number: u8) -> &'static str {
    let found = REFUSALS.iter().find(|refusal| refusal.number == number);
    found.map_or("not in the list of refusals", |refusal| refusal.meaning)
}

pub fn text() -> String {
    let width = REFUSALS.iter().map(|r| r.meaning.len()).max().unwrap_or(0);
    REFUSALS
        .iter()
        .map(|r| format!("{:>2}  {:width$}  {}\n", r.number, r.meaning, r.met))
        .collect()
}

pub fn markdown() -> String {
    let head = "| No | Meaning | Met by |\n|---|---|---|\n".to_string();
    let row = |r: &Refusal| format!("| {} | {} | {} |\n", r.number, r.meaning, r.met);
    head + &REFUSALS.iter().map(row).collect::<String>()
}
