//! The expiry program as `plain` has it: reads questions from standard input and prints their answers.

use plain::expiry_lines::printed;
use std::io::{self, Read, Write};

fn main() -> io::Result<()> {
    let mut input = Vec::new();
    io::stdin().lock().read_to_end(&mut input)?;
    io::stdout().write_all(printed(&input).as_bytes())
}
