//! What is told of an account: held to stored text for the examples, and to the second working over telling and random books.

#[path = "account/expected.rs"]
mod expected;
#[path = "account/forms.rs"]
mod forms;
#[path = "account/json.rs"]
mod json;
#[path = "account/largest.rs"]
mod largest;
#[path = "account/second.rs"]
mod second;
#[path = "account/varied.rs"]
mod varied;

use native::desk::{run_on, Run};
use native::set_up::Book;

/// The book as it stands after so many of its records.
fn after(bytes: &[u8], records: usize) -> Run {
    let (mut numbers, mut sums) = (vec![0; records], vec![0; records]);
    run_on(Book::new(), bytes, 0, &mut numbers, &mut sums)
}
