//! A file of a crate's source as Rust: what speaks to the prover alone goes, all else stays where it stands, line for line.

/// Each file has other crates brought in by name, so that their paths stay as they are.
pub fn in_rust(text: &str, name: &str, needs: &[String]) -> String {
    let mut source = Source::of(text);
    let mut at = 0;
    while at < source.tokens.len() {
        at = source.turn(at, name);
    }
    format!("use crate::{{{}}}; {}", needs.join(", "), source.text())
}

/// A word, a number, a text or a sign, and the blanks and comments before it.
struct Token {
    before: String,
    word: String,
}

struct Source {
    tokens: Vec<Token>,
}

impl Source {
    fn of(text: &str) -> Source {
        let mut tokens = Vec::new();
        let mut rest = text;
        while !rest.is_empty() {
            let (before, behind) = rest.split_at(gap(rest));
            let (word, behind) = behind.split_at(width(behind));
            // No comment documents an item, since what it stands before may go.
            let before = before.replace("///", "//").replace("//!", "//");
            let word = word.to_string();
            tokens.push(Token { before, word });
            rest = behind;
        }
        Source { tokens }
    }

    fn text(&self) -> String {
        let parts = |token: &Token| [token.before.clone(), token.word.clone()].concat();
        self.tokens.iter().map(parts).collect()
    }

    /// Nothing past the last.
    fn word(&self, at: usize) -> &str {
        self.tokens.get(at).map_or("", |token| &token.word)
    }

    fn is(&self, at: usize, words: &[&str]) -> bool {
        (at..).zip(words).all(|(at, word)| self.word(at) == *word)
    }

    /// Where the first of these words stands outside all brackets, or else the text's end.
    fn find(&self, mut at: usize, words: &[&str]) -> usize {
        while at < self.tokens.len() && !words.contains(&self.word(at)) {
            at = self.behind(at);
        }
        at
    }

    /// Behind a word, or behind the bracket that closes the one that stands there.
    fn behind(&self, at: usize) -> usize {
        let mut depth = 0;
        for at in at..self.tokens.len() {
            match self.word(at) {
                "(" | "[" | "{" => depth += 1,
                ")" | "]" | "}" => depth -= 1,
                _ => {}
            }
            if depth <= 0 {
                return at + 1;
            }
        }
        self.tokens.len()
    }

    fn leave_out(&mut self, from: usize, to: usize) -> usize {
        for token in &mut self.tokens[from..to] {
            token.word.clear();
        }
        to
    }

    fn put(&mut self, at: usize, word: String) -> usize {
        self.tokens[at].word = word;
        at + 1
    }

    /// Turns what begins here, and says where to go on.
    fn turn(&mut self, at: usize, name: &str) -> usize {
        match self.word(at) {
            "ghost" => self.leave_out(at, self.behind_ghost(at)),
            "requires" | "ensures" => self.leave_out(at, self.behind(self.find(at, &["{"]))),
            "pub" => self.visible(at),
            "#" => self.attribute(at),
            "impl" | "use" => self.modelled(at),
            "Drop" => self.bound(at),
            "let" => self.binding(at),
            "final" if self.word(at + 1) == "fn" => self.leave_out(at, at + 1),
            "crate" if self.word(at + 1) == "::" => self.put(at, format!("crate::{name}")),
            "prove" | "prove_eq" | "prove_ne" if self.word(at + 1) == "!" => {
                let asserted = self.word(at).replace("prove", "debug_assert");
                self.put(at, asserted)
            }
            _ => at + 1,
        }
    }

    /// An import, a member, a field or a value: its type, what shows that type to be a fact, and what it is.
    fn behind_ghost(&self, at: usize) -> usize {
        if self.word(at + 1) == "use" {
            return self.find(at, &[";"]) + 1;
        }
        let mut end = self.find(at, &[":", "="]);
        while [":", "by", "="].contains(&self.word(end)) {
            end = self.behind(end + 1);
        }
        if [",", ";"].contains(&self.word(end)) {
            end += 1;
        }
        end
    }

    fn visible(&mut self, at: usize) -> usize {
        let end = match self.word(at + 1) {
            "(" => self.behind(at + 1),
            _ => at + 1,
        };
        match self.word(end) {
            "ghost" => self.leave_out(at, end),
            _ => end,
        }
    }

    /// Tactics and names of cycles; a derive of what rustc drops unasked; tests, which take a runtime that is not here.
    fn attribute(&mut self, at: usize) -> usize {
        let open = self.find(at, &["["]);
        let end = self.behind(open);
        match self.word(open + 1) {
            "tactic" | "cycle" => return self.leave_out(at, end),
            "derive" => self.leave_out_named("Drop", open, end),
            "cfg" if self.is(open + 2, &["(", "test"]) => {
                self.put(open + 3, "any()".to_string());
            }
            _ => {}
        }
        end
    }

    /// Out of a list, with the comma that parts it from the next.
    fn leave_out_named(&mut self, word: &str, from: usize, to: usize) {
        for at in from..to {
            if self.word(at) == word {
                let comma = usize::from(self.word(at + 1) == ",");
                self.leave_out(at, at + 1 + comma);
            }
        }
    }

    /// What a contract sees of a struct.
    fn modelled(&mut self, at: usize) -> usize {
        let end = self.find(at, &["{", ";"]);
        let models = |at| self.is(at, &["Model", "for"]) || self.is(at, &["Model", ";"]);
        if (at..end).any(models) {
            return self.leave_out(at, self.behind(end));
        }
        if self.word(at) == "use" {
            self.leave_out_named("Model", at, self.find(at, &[";"]));
        }
        at + 1
    }

    /// That a value may be let go, as all may in Rust.
    fn bound(&mut self, at: usize) -> usize {
        if self.word(at - 1) == "+" {
            self.leave_out(at - 1, at + 1);
        } else if self.word(at - 1) == ":" {
            let more = usize::from(self.word(at + 1) == "+");
            self.leave_out(at, at + 1 + more);
        }
        at + 1
    }

    /// `let PATTERN = VALUE else {` with `if let`, since Rust 1.63 has no `let .. else`.
    fn binding(&mut self, at: usize) -> usize {
        let equals = self.find(at, &["=", ";"]);
        let end = self.find(equals, &["else", ";"]);
        let condition = at != 0 && ["if", "while", "&"].contains(&self.word(at - 1));
        // What ends in a brace is an `if` with an `else` of its own.
        if condition || self.word(end) != "else" || self.word(end - 1) == "}" {
            return at + 1;
        }
        let names = self.names(at + 1, equals);
        let bare = names.replace("mut ", "");
        self.put(end, format!("{{ ({bare}) }} else"));
        self.put(at, format!("let ({names}) = if let"))
    }

    /// What a pattern gives names to, each with a comma behind it, as in a tuple of any length.
    fn names(&self, from: usize, to: usize) -> String {
        let named = |&at: &usize| {
            let word = self.word(at);
            // A field, a path or a byte goes on.
            let goes_on = self.word(at + 1).starts_with([':', '\'', '"']);
            let other = goes_on || ["mut", "ref", "true", "false"].contains(&word);
            word.starts_with(|first: char| first.is_ascii_lowercase()) && !other
        };
        let written = |at| match self.word(at - 1) {
            "mut" => format!("mut {}, ", self.word(at)),
            _ => format!("{}, ", self.word(at)),
        };
        (from..to).filter(named).map(written).collect()
    }
}

/// How many bytes of blanks and comments come first.
fn gap(text: &str) -> usize {
    let mut rest = text.trim_start();
    while rest.starts_with("//") || rest.starts_with("/*") {
        let end = if rest.starts_with("//") { "\n" } else { "*/" };
        let long = rest.find(end).map_or(rest.len(), |at| at + end.len());
        rest = rest[long..].trim_start();
    }
    text.len() - rest.len()
}

/// How many bytes the first word, number, text or sign has.
fn width(text: &str) -> usize {
    let run = |within: fn(char) -> bool| text.find(|sign| !within(sign)).unwrap_or(text.len());
    let mut signs = text.chars();
    match signs.next() {
        None => 0,
        Some('"') => quoted(text),
        // A lifetime or a label has no second one.
        Some('\'') if signs.next() == Some('\\') || signs.next() == Some('\'') => quoted(text),
        Some(sign) if is_of_word(sign) => run(is_of_word),
        Some(sign) if is_of_operator(sign) => run(is_of_operator),
        Some(sign) => sign.len_utf8(),
    }
}

fn is_of_word(sign: char) -> bool {
    sign == '_' || sign.is_alphanumeric()
}

/// Of those that have to be told from a single `=`, `:` or `!`.
fn is_of_operator(sign: char) -> bool {
    "=<>:!.".contains(sign)
}

/// Up to the mark that it begins with; what stands behind a `\` ends nothing.
fn quoted(text: &str) -> usize {
    let mark = text.chars().next();
    let mut escaped = false;
    for (at, sign) in text.char_indices().skip(1) {
        if !escaped && Some(sign) == mark {
            return at + 1;
        }
        escaped = !escaped && sign == '\\';
    }
    text.len()
}
