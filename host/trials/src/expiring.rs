//! Random lines for the expiry program: questions near the edges of its rules, written with blanks of all kinds; lines that can't be read;
//! and lines that ask nothing. What a line says is known from its making, and not by reading it.

use crate::assigning::assignment;
use crate::chance::Chance;
use crate::exercising::request;
use plain::expiry::Request;
use plain::expiry_lines::{Question, LONGEST_LINE};
use plain::terms::Right;

#[derive(Clone, Debug, PartialEq, Eq)]
pub enum Meant {
    Nothing,
    Unreadable,
    Asked(Question),
}

pub struct Line {
    pub bytes: Vec<u8>,
    pub meant: Meant,
}

/// Lines to be given to a program at once.
pub struct Batch {
    pub input: Vec<u8>,
    pub lines: Vec<Line>,
}

/// A program is started for each batch.
const QUESTIONS: u64 = 250;

/// The same seed and number make the same lines, up to as many questions as are asked for.
pub fn batch(seed: u64, number: u64, most: u64) -> Batch {
    let mut chance = Chance::new(seed, number);
    let (mut lines, mut questions) = (Vec::new(), 0);
    while questions < most.min(QUESTIONS) {
        let line = line(&mut chance);
        questions += u64::from(line.meant != Meant::Nothing);
        lines.push(line);
    }
    let bytes: Vec<&[u8]> = lines.iter().map(|line| &line.bytes[..]).collect();
    let mut input = bytes.join(&b'\n');
    // The last line needs no end.
    if chance.percent(50) {
        input.push(b'\n');
    }
    Batch { input, lines }
}

fn line(chance: &mut Chance) -> Line {
    if chance.percent(5) {
        return nothing(chance);
    }
    let question = if chance.percent(50) {
        Question::Exercise(request(chance))
    } else {
        let (exercised, accounts) = assignment(chance);
        Question::Assign {
            exercised,
            accounts,
        }
    };
    let mut words = written(&question);
    if chance.percent(12) {
        unread(chance, &mut words);
        return Line {
            bytes: spaced(chance, &words),
            meant: Meant::Unreadable,
        };
    }
    zeros(chance, &mut words);
    let bytes = spaced(chance, &words);
    lengthened(chance, bytes, Meant::Asked(question))
}

fn written(question: &Question) -> Vec<Vec<u8>> {
    let text = match question {
        Question::Exercise(request) => exercise(request),
        Question::Assign {
            exercised,
            accounts,
        } => {
            let counts = accounts.iter().flat_map(|a| [a.short, a.covered]);
            counts.fold(format!("assign {exercised}"), |line, count| {
                format!("{line} {count}")
            })
        }
    };
    text.split(' ').map(|word| word.into()).collect()
}

fn exercise(request: &Request) -> String {
    let right = match request.right {
        Right::Call => "call",
        Right::Put => "put",
    };
    let (strike, unit, held) = (request.strike, request.unit, request.held);
    let held = format!("{} {} {}", held.long, held.short, held.covered);
    let (count, offered) = (request.count, request.offered);
    format!("exercise {right} {strike} {unit} {held} {count} {offered}")
}

/// A number says the same with zeros before it.
fn zeros(chance: &mut Chance, words: &mut [Vec<u8>]) {
    if chance.percent(5) {
        let word = &mut words[chance.between(1, words.len() as i64 - 1) as usize];
        if word[0].is_ascii_digit() {
            let zeros = vec![b'0'; chance.pick(&[1, 2, 20, 300])];
            word.splice(..0, zeros);
        }
    }
}

/// One space between the words, or any blanks between, before and behind them.
fn spaced(chance: &mut Chance, words: &[Vec<u8>]) -> Vec<u8> {
    if chance.percent(70) {
        return words.join(&b' ');
    }
    let mut line = blanks(chance, 0);
    for word in words {
        line.extend(word);
        line.extend(blanks(chance, 1));
    }
    line
}

fn blanks(chance: &mut Chance, least: i64) -> Vec<u8> {
    let number = chance.pick(&[0, 0, 1, 3]).max(least);
    (0..number).map(|_| chance.pick(b"  \t\r")).collect()
}

/// Now and then as long as a line may be, or one byte longer.
fn lengthened(chance: &mut Chance, mut bytes: Vec<u8>, meant: Meant) -> Line {
    if !chance.percent(2) {
        return Line { bytes, meant };
    }
    let blank = chance.pick(b" \t\r");
    let front = chance.percent(50);
    let missing = vec![blank; LONGEST_LINE.saturating_sub(bytes.len())];
    let place = if front { 0 } else { bytes.len() };
    bytes.splice(place..place, missing);
    if chance.percent(50) {
        bytes.push(blank);
        return Line {
            bytes,
            meant: Meant::Unreadable,
        };
    }
    Line { bytes, meant }
}

fn nothing(chance: &mut Chance) -> Line {
    let mut bytes = blanks(chance, 0);
    if chance.percent(50) {
        let said: [&[u8]; 5] = [b"", b" said", b"assign 1 1 0", b"#\0", b"\xff \x0b"];
        bytes.push(b'#');
        bytes.extend(chance.pick(&said));
    }
    lengthened(chance, bytes, Meant::Nothing)
}

/// Makes of any question a line that can't be read.
fn unread(chance: &mut Chance, words: &mut Vec<Vec<u8>>) {
    let last = words.len() as i64 - 1;
    let at = chance.between(0, last) as usize;
    match chance.weighted(&[20, 20, 20, 20, 10, 10, 10]) {
        // One less or one more is too few or too many fields, or half an account.
        0 => drop(words.remove(at)),
        1 => words.insert(at + 1, b"0".to_vec()),
        2 => too_wide(chance, words, at.max(1)),
        3 => strange_byte(chance, &mut words[at]),
        4 => words[0] = first_word(chance),
        5 => words[at.max(1)].insert(0, chance.pick(b"+-")),
        _ => words[1] = right(chance),
    }
}

/// One more than the field holds, or as much more as would come round to the same number.
fn too_wide(chance: &mut Chance, words: &mut [Vec<u8>], at: usize) {
    let offered = words[0] == b"exercise" && at == 8;
    let width = if offered { 64 } else { chance.pick(&[32, 64]) };
    let own = String::from_utf8_lossy(&words[at]).parse().unwrap_or(0);
    let more: u128 = chance.pick(&[0, own]);
    words[at] = ((1_u128 << width) + more).to_string().into_bytes();
}

/// Next to the digits, signs, what others take for blanks, the end of a text in C; never a digit, a letter of the words, a blank. Nor
/// what starts a remark.
fn strange_byte(chance: &mut Chance, word: &mut Vec<u8>) {
    let byte = chance.pick(b"/:+-.,_zCP\0\x0b\x0c\x7f\x80\xff");
    let at = chance.between(0, word.len() as i64) as usize;
    if at < word.len() && chance.percent(50) {
        word[at] = byte;
    } else {
        word.insert(at, byte);
    }
}

fn first_word(chance: &mut Chance) -> Vec<u8> {
    let words = ["exercises", "exercis", "Exercise", "assigns", "ASSIGN", "e"];
    let any = ["a", "call", "0", "exerciseassign", "net", "1#"];
    let list = chance.pick(&[words, any]);
    chance.pick(&list).into()
}

fn right(chance: &mut Chance) -> Vec<u8> {
    let words = ["Call", "PUT", "calls", "pu", "c", "callput", "#", "assign"];
    chance.pick(&words).into()
}
