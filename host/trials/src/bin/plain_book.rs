//! The book program as `plain` has it: reads a book from standard input and prints a line for each record.

use plain::program::printed;
use std::io::{self, Read, Write};

fn main() -> io::Result<()> {
    let mut input = Vec::new();
    io::stdin().lock().read_to_end(&mut input)?;
    io::stdout().write_all(printed(&input).as_bytes())
}
