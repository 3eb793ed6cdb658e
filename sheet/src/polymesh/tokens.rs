//! The words and marks of an OpenFOAM file, one after another, without comments.

use crate::mistake::{quoted, Mistake};

/// A word, a quoted text, or one of `( ) { } ;`.
#[derive(Clone, Copy, Debug, PartialEq, Eq)]
pub enum Token<'a> {
    Word(&'a str),
    Text(&'a str),
    Mark(char),
}

/// A token and its line.
#[derive(Clone, Copy, Debug, PartialEq, Eq)]
pub struct Spot<'a> {
    pub line: usize,
    pub token: Token<'a>,
}

/// What is left to be read of a file.
#[derive(Clone, Debug)]
pub struct Tokens<'a> {
    rest: &'a str,
    line: usize,
}

const MARKS: &str = "(){};";

impl<'a> Tokens<'a> {
    pub fn of(text: &'a str) -> Self {
        Self {
            rest: text,
            line: 1,
        }
    }

    /// The line that is read.
    pub fn line(&self) -> usize {
        self.line
    }

    /// The next token, none at the file's end.
    pub fn next(&mut self) -> Result<Option<Spot<'a>>, Mistake> {
        self.skip()?;
        let line = self.line;
        let Some(first) = self.rest.chars().next() else {
            return Ok(None);
        };
        let token = if MARKS.contains(first) {
            self.take(first.len_utf8());
            Token::Mark(first)
        } else if first == '"' {
            self.text()?
        } else {
            Token::Word(self.take(word_length(self.rest)))
        };
        Ok(Some(Spot { line, token }))
    }

    /// The next token, which is left to be read again.
    pub fn peek(&self) -> Result<Option<Spot<'a>>, Mistake> {
        self.clone().next()
    }

    /// The next token; `expected` says what has to come.
    pub fn need(&mut self, expected: &str) -> Result<Spot<'a>, Mistake> {
        let line = self.line;
        let found = self.next()?;
        found.ok_or_else(|| Mistake::new(line, format!("expected {expected}, and the file ends")))
    }

    /// A word; `expected` says which has to come.
    pub fn word(&mut self, expected: &str) -> Result<(usize, &'a str), Mistake> {
        let spot = self.need(expected)?;
        match spot.token {
            Token::Word(word) => Ok((spot.line, word)),
            _ => Err(spot.unlike(expected)),
        }
    }

    /// A mark.
    pub fn mark(&mut self, mark: char, expected: &str) -> Result<usize, Mistake> {
        let spot = self.need(expected)?;
        if spot.token == Token::Mark(mark) {
            Ok(spot.line)
        } else {
            Err(spot.unlike(expected))
        }
    }

    /// Passes over blanks and comments.
    fn skip(&mut self) -> Result<(), Mistake> {
        loop {
            let blanks = self.rest.len() - self.rest.trim_start().len();
            self.take(blanks);
            let end = if self.rest.starts_with("//") {
                Some(self.rest.find('\n').unwrap_or(self.rest.len()))
            } else if self.rest.starts_with("/*") {
                self.rest[2..].find("*/").map(|at| at + 4)
            } else {
                return Ok(());
            };
            let Some(end) = end else {
                return Err(Mistake::new(self.line, "a comment `/*` has no end `*/`"));
            };
            self.take(end);
        }
    }

    /// A quoted text, without its quotes.
    fn text(&mut self) -> Result<Token<'a>, Mistake> {
        let Some(end) = self.rest[1..].find('"') else {
            return Err(Mistake::new(self.line, "a quoted text has no end"));
        };
        let quoted = self.take(end + 2);
        Ok(Token::Text(&quoted[1..=end]))
    }

    /// The next bytes, which are then read.
    fn take(&mut self, length: usize) -> &'a str {
        let (taken, rest) = self.rest.split_at(length);
        self.line += taken.matches('\n').count();
        self.rest = rest;
        taken
    }
}

/// How long the word is that a text begins with.
fn word_length(text: &str) -> usize {
    let ends = |c: char| c.is_whitespace() || MARKS.contains(c) || c == '"';
    let end = text.find(ends).unwrap_or(text.len());
    let word = &text[..end];
    let comment = [word.find("//"), word.find("/*")];
    comment.into_iter().flatten().min().unwrap_or(end)
}

impl Spot<'_> {
    /// That another token was expected.
    pub fn unlike(&self, expected: &str) -> Mistake {
        let found = match self.token {
            Token::Word(word) => quoted(word),
            Token::Text(text) => format!("the text {}", quoted(text)),
            Token::Mark(mark) => format!("`{mark}`"),
        };
        Mistake::new(self.line, format!("expected {expected}, found {found}"))
    }
}
