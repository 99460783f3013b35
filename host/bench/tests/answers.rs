//! Every version gives the answers that `plain`'s own run gives, on the telling books, on random ones, and on a book that is taken up
//! again in the middle.

use bench::versions::{in_hand, Answers, VERSIONS};
use plain::book::run_book;
use plain::record::read;
use trials::{booking, telling};

fn expected(bytes: &[u8]) -> Answers {
    let (numbers, sums) = run_book(bytes, bytes.len()).answers.into_iter().unzip();
    Answers { numbers, sums }
}

fn hold(name: &str, bytes: &[u8]) {
    let expected = expected(bytes);
    for version in VERSIONS {
        let mut answers = Answers::places(bytes.len());
        let answered = (version.after)(&[]).answer(bytes, &mut answers);
        answers.truncate(answered);
        assert_eq!(answers, expected, "{}, {name}", version.name);
    }
}

#[test]
fn telling_books() {
    for told in telling::books() {
        hold(&told.name, &told.bytes);
    }
}

#[test]
fn random_books() {
    for number in 1..=400 {
        hold(&format!("book {number}"), &booking::book(107, number));
    }
}

#[test]
fn a_book_that_is_taken_up_again() {
    for number in 1..=40 {
        let bytes = booking::book(1070, number);
        let expected = expected(&bytes);
        let (mut place, mut records) = (0, 0);
        while let (Ok((_, length)), true) = (read(&bytes, place), place < bytes.len() / 2) {
            place += length;
            records += 1;
        }
        let (before, rest) = bytes.split_at(place);
        for version in in_hand() {
            let book = (version.after)(before);
            let mut answers = Answers::places(rest.len());
            let answered = book.answer(rest, &mut answers);
            assert_eq!(records + answered, expected.numbers.len());
            assert_eq!(answers.numbers[..answered], expected.numbers[records..]);
            assert_eq!(answers.sums[..answered], expected.sums[records..]);
        }
    }
}
