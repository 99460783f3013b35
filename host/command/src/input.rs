//! A file or standard input, told by its name where it can't be read.

use crate::trouble::{system, Trouble};
use std::env;
use std::fs::File;
use std::io::{self, ErrorKind, Read};
use std::os::unix::io::AsFd;
use std::process::Stdio;

pub struct Input {
    pub name: String,
    from: File,
}

/// Set by the launcher where standard input is closed. This program can't see that: the system puts an empty one in its place.
const CLOSED: &str = "RAVUNDESK_INPUT";

/// How much is asked for at once.
const CHUNK: usize = 1 << 16;

impl Input {
    /// A file, or standard input where none is named or its name is `-`.
    pub fn open(file: Option<&str>) -> Result<Input, Trouble> {
        match file {
            None | Some("-") if env::var_os(CLOSED).is_some() => {
                Err(Trouble("standard input is closed".to_string()))
            }
            None | Some("-") => Input::standard(),
            Some(name) => Input::file(name),
        }
    }

    fn standard() -> Result<Input, Trouble> {
        let name = "standard input".to_string();
        let own = io::stdin().as_fd().try_clone_to_owned();
        let own = own.map_err(|error| unread(&name, &error))?;
        Ok(Input {
            name,
            from: File::from(own),
        })
    }

    fn file(name: &str) -> Result<Input, Trouble> {
        let file = File::open(name).map_err(|error| match error.kind() {
            ErrorKind::NotFound => Trouble(format!("there is no file {name}")),
            _ => unread(name, &error),
        })?;
        let kind = file.metadata().map_err(|error| unread(name, &error))?;
        if kind.is_dir() {
            return Err(Trouble(format!("{name} is a directory")));
        }
        Ok(Input {
            name: name.to_string(),
            from: file,
        })
    }

    /// What comes next, behind what is held already; how many bytes, 0 at the end.
    pub fn more(&mut self, held: &mut Vec<u8>) -> Result<usize, Trouble> {
        self.up_to(CHUNK, held)
    }

    fn up_to(&mut self, most: usize, held: &mut Vec<u8>) -> Result<usize, Trouble> {
        let before = held.len();
        held.resize(before + most, 0);
        let read = loop {
            match self.from.read(&mut held[before..]) {
                Err(error) if error.kind() == ErrorKind::Interrupted => continue,
                read => break read,
            }
        };
        held.truncate(before + *read.as_ref().unwrap_or(&0));
        read.map_err(|error| unread(&self.name, &error))
    }

    /// The first bytes, as many as asked for or all that there are.
    pub fn first(&mut self, most: usize) -> Result<Vec<u8>, Trouble> {
        let mut held = Vec::new();
        while held.len() < most && 0 < self.up_to(most - held.len(), &mut held)? {}
        Ok(held)
    }

    /// For a program that reads it itself.
    pub fn handed(mut self) -> Result<Stdio, Trouble> {
        // The program has no words for what can't be read. To read nothing takes nothing away, and fails where reading would.
        self.up_to(0, &mut Vec::new())?;
        Ok(self.from.into())
    }
}

fn unread(name: &str, error: &io::Error) -> Trouble {
    system(format!("{name} can't be read"), error)
}
