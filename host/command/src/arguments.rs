//! What is asked on the command line: a verb, its options, its operands.

use crate::output::Output;
use crate::trouble::{Outcome, Trouble};

pub struct Verb {
    pub name: &'static str,
    /// How it is called, without the command's own name.
    pub usage: &'static str,
    /// In one line.
    pub about: &'static str,
    /// More, for whoever asks for help on it.
    pub help: &'static str,
    pub options: &'static [Choice],
    /// How many operands it takes at the most.
    pub operands: usize,
    pub run: fn(&Asked, &mut Output) -> Outcome,
}

pub struct Choice {
    pub name: &'static str,
    /// What stands behind it, where something does: a sign for it, and its sort in words.
    pub value: Option<(&'static str, &'static str)>,
    pub about: &'static str,
}

#[derive(Debug, Default)]
pub struct Asked {
    options: Vec<(&'static str, String)>,
    operands: Vec<String>,
}

impl Asked {
    /// The words behind a verb; nothing where they ask for help on it.
    pub fn of(verb: &Verb, words: &[String]) -> Result<Option<Asked>, Trouble> {
        let mut asked = Asked::default();
        let mut words = words.iter();
        let mut options = true;
        while let Some(word) = words.next() {
            match word.as_str() {
                "--help" | "-h" if options => return Ok(None),
                "--" if options => options = false,
                option if options && option.starts_with('-') && option != "-" => {
                    asked.option(verb, option, &mut words)?;
                }
                _ => asked.operands.push(word.clone()),
            }
        }
        if verb.operands < asked.operands.len() {
            let more = &asked.operands[verb.operands];
            return Err(misused(verb, &format!("`{more}` is one operand too many")));
        }
        Ok(Some(asked))
    }

    fn option<'a>(
        &mut self,
        verb: &Verb,
        word: &str,
        words: &mut impl Iterator<Item = &'a String>,
    ) -> Result<(), Trouble> {
        let (name, joined) = match word.split_once('=') {
            Some((name, value)) => (name, Some(value.to_string())),
            None => (word, None),
        };
        let choice = verb.options.iter().find(|choice| choice.name == name);
        let choice = choice.ok_or_else(|| misused(verb, &format!("it has no option {name}")))?;
        let value = match choice.value {
            None if joined.is_some() => {
                return Err(misused(verb, &format!("{name} takes no value")));
            }
            None => String::new(),
            Some((_, sort)) => joined
                .or_else(|| words.next().cloned())
                .ok_or_else(|| misused(verb, &format!("{name} takes {sort}")))?,
        };
        self.options.push((choice.name, value));
        Ok(())
    }

    /// No verb takes more than one.
    pub fn operand(&self) -> Option<&str> {
        self.operands.first().map(String::as_str)
    }

    pub fn has(&self, name: &str) -> bool {
        self.value(name).is_some()
    }

    /// What stands behind an option; the last one counts.
    pub fn value(&self, name: &str) -> Option<&str> {
        let mut options = self.options.iter().rev();
        let found = options.find(|(option, _)| *option == name);
        found.map(|(_, value)| value.as_str())
    }

    /// The one of these options that is there, where at most one may be.
    pub fn one_of(&self, names: &[&'static str]) -> Result<Option<&'static str>, Trouble> {
        let there: Vec<&str> = names
            .iter()
            .copied()
            .filter(|name| self.has(name))
            .collect();
        match there[..] {
            [first, second, ..] => Err(Trouble(format!("{first} and {second} exclude each other"))),
            _ => Ok(names.iter().copied().find(|name| self.has(name))),
        }
    }
}

fn misused(verb: &Verb, what: &str) -> Trouble {
    let (name, usage) = (verb.name, verb.usage);
    Trouble(format!("{name}: {what}; usage: ravundesk {usage}"))
}
