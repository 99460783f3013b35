//! A line of the verb `run`, taken apart.

pub struct Line<'a> {
    pub number: usize,
    /// In words.
    pub record: &'a str,
    /// In fen.
    pub available: i64,
    pub why: Option<Why<'a>>,
}

pub struct Why<'a> {
    pub stopped: bool,
    pub refusal: u8,
    pub meaning: &'a str,
    pub figures: &'a str,
}

impl Line<'_> {
    pub fn of(line: &str) -> Line<'_> {
        let marks = [("  REFUSED ", false), ("  STOPPED ", true)];
        let cut = |(mark, stopped)| Some((line.split_once(mark)?, stopped));
        let found = marks.into_iter().find_map(cut);
        let (head, why) = match found {
            Some(((head, why), stopped)) => (head, Some(Why::of(why, stopped))),
            None => (line, None),
        };
        let (number, head) = part(head.trim_start(), "  ");
        let (record, available) = head.rsplit_once(' ').expect("a sum ends the head");
        Line {
            number: number.parse().expect("a line begins with its number"),
            record: record.trim_end(),
            available: decimal(available, 2) as i64,
            why,
        }
    }

    pub fn refusal(&self) -> u8 {
        self.why.as_ref().map_or(0, |why| why.refusal)
    }
}

impl Why<'_> {
    fn of(words: &str, stopped: bool) -> Why<'_> {
        let (number, words) = part(words, ": ");
        let (meaning, figures) = part(words, "; ");
        Why {
            stopped,
            refusal: number.parse().expect("a refusal has its number"),
            meaning,
            figures,
        }
    }
}

/// What stands before and behind a sign that has to be there.
pub fn part<'a>(words: &'a str, at: &str) -> (&'a str, &'a str) {
    let parts = words.split_once(at);
    parts.unwrap_or_else(|| panic!("no `{at}` in: {words}"))
}

/// A number with so many digits behind its point, no more and no fewer, in units of the last.
pub fn decimal(text: &str, places: usize) -> i128 {
    let (whole, rest) = match places {
        0 => (text, ""),
        _ => part(text, "."),
    };
    assert_eq!(rest.len(), places, "places of {text}");
    let digits = format!("{whole}{rest}");
    let number = digits.parse();
    number.unwrap_or_else(|_| panic!("{text} is no number"))
}

/// The numbers of `NAME NUMBER, NAME NUMBER ..`, which have these names and no others.
pub fn figures<const N: usize>(words: &str, names: [&str; N], places: usize) -> [i128; N] {
    let parts: Vec<&str> = words.split(", ").collect();
    assert_eq!(parts.len(), N, "figures of: {words}");
    let mut numbers = [0; N];
    for ((number, part), name) in numbers.iter_mut().zip(parts).zip(names) {
        let behind = part.strip_prefix(name);
        let behind = behind.and_then(|behind| behind.strip_prefix(' '));
        let behind = behind.unwrap_or_else(|| panic!("no figure {name} in: {words}"));
        *number = decimal(behind, places);
    }
    numbers
}

/// The words without their ` (COUNT x ONE)`, and its two numbers.
pub fn times(words: &str, places: usize) -> (String, [i128; 2]) {
    let (before, rest) = part(words, " (");
    let (product, behind) = part(rest, ")");
    let (count, one) = part(product, " x ");
    let numbers = [decimal(count, 0), decimal(one, places)];
    (format!("{before}{behind}"), numbers)
}
