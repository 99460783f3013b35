//! Reads lines from standard input and writes each again, with ` = ` and its answer where it asks something.

use std::io::{self, BufRead, BufWriter, Write};
use trials::answered;
use trials::edges::Edges;

fn main() -> io::Result<()> {
    let mut edges = Edges::new();
    let mut output = BufWriter::new(io::stdout().lock());
    for line in io::stdin().lock().split(b'\n') {
        let line = line?;
        match std::str::from_utf8(&line) {
            Ok(text) => output.write_all(answered(&mut edges, text).as_bytes())?,
            Err(_) => output.write_all(&line)?,
        }
        output.write_all(b"\n")?;
    }
    output.flush()
}
