//! Standard output, on which nothing is lost silently.

use crate::trouble::{system, Trouble};
use std::io::{self, BufWriter, ErrorKind, Stdout, Write};

pub struct Output(BufWriter<Stdout>);

impl Output {
    pub fn new() -> Output {
        Output(BufWriter::with_capacity(1 << 16, io::stdout()))
    }

    pub fn put(&mut self, bytes: impl AsRef<[u8]>) -> Result<(), Trouble> {
        self.0
            .write_all(bytes.as_ref())
            .map_err(|error| lost(&error))
    }

    pub fn line(&mut self, text: &str) -> Result<(), Trouble> {
        self.put(text)?;
        self.put("\n")
    }

    /// To be called before anything is waited for, and at the end.
    pub fn flush(&mut self) -> Result<(), Trouble> {
        self.0.flush().map_err(|error| lost(&error))
    }
}

impl Default for Output {
    fn default() -> Output {
        Output::new()
    }
}

fn lost(error: &io::Error) -> Trouble {
    match error.kind() {
        ErrorKind::BrokenPipe => {
            Trouble("standard output was closed before all was written".to_string())
        }
        _ => system("standard output can't be written", error),
    }
}

/// A line for the person at the desk. Where nobody can hear it, the status still tells.
pub fn say(line: &str) {
    let _ = writeln!(io::stderr(), "ravundesk: {line}");
}
