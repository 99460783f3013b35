//! `write_examples DIRECTORY` writes the books of `examples/` anew.

use std::path::PathBuf;
use std::{env, fs, io};
use trials::examples::books;

fn main() -> io::Result<()> {
    let directory = PathBuf::from(env::args().nth(1).unwrap_or_else(|| ".".to_string()));
    for (name, bytes) in books() {
        fs::write(directory.join(name), bytes)?;
    }
    Ok(())
}
