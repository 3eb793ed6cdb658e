//! A sheet as its entries: a word, what stands beside it, and the items on the lines below.

use crate::lines::Line;
use crate::mistake::{quoted, Mistake};

/// The words that begin an entry.
pub const NAMES: [&str; 17] = [
    "form",
    "dimension",
    "points",
    "faces",
    "cells",
    "face-order",
    "conditions",
    "links",
    "velocity",
    "pressure",
    "momentum-diagonal",
    "momentum-response",
    "wall-flux",
    "pressure-correction",
    "predicted-flux",
    "face-coefficient",
    "face-value",
];

/// A word, the words beside it, and the lines below it that begin with a digit.
#[derive(Debug)]
pub struct Entry<'a> {
    pub name: &'static str,
    pub line: usize,
    pub arguments: Vec<&'a str>,
    pub items: Vec<Line<'a>>,
}

/// The entries of a sheet, each word at most once.
#[derive(Debug)]
pub struct Entries<'a> {
    all: Vec<Entry<'a>>,
    last_line: usize,
}

impl<'a> Entries<'a> {
    pub fn of(lines: Vec<Line<'a>>, last_line: usize) -> Result<Self, Mistake> {
        let mut entries = Self {
            all: Vec::new(),
            last_line,
        };
        for line in lines {
            let is_item = line.words[0].starts_with(|c: char| c.is_ascii_digit());
            match (is_item, entries.all.last_mut()) {
                (false, _) => entries.begin(line)?,
                (true, Some(entry)) => entry.items.push(line),
                (true, None) => {
                    let found = quoted(line.words[0]);
                    let reason = format!("expected a word such as `form` first, found {found}");
                    return Err(Mistake::new(line.number, reason));
                }
            }
        }
        Ok(entries)
    }

    fn begin(&mut self, line: Line<'a>) -> Result<(), Mistake> {
        let Some(&name) = NAMES.iter().find(|&&name| name == line.words[0]) else {
            let found = quoted(line.words[0]);
            let reason = format!(
                "{found} is no word of a sheet: expected an item, which begins with its number, or one of {}",
                NAMES.join(", ")
            );
            return Err(Mistake::new(line.number, reason));
        };
        if let Some(first) = self.get(name) {
            let reason = format!("`{name}` is given twice, first on line {}", first.line);
            return Err(Mistake::new(line.number, reason));
        }
        self.all.push(Entry {
            name,
            line: line.number,
            arguments: line.words[1..].to_vec(),
            items: Vec::new(),
        });
        Ok(())
    }

    /// The entry of that word, where there is one.
    pub fn get(&self, name: &str) -> Option<&Entry<'a>> {
        self.all.iter().find(|entry| entry.name == name)
    }

    /// The entry of that word; `why` says what needs it.
    pub fn need(&self, name: &str, why: &str) -> Result<&Entry<'a>, Mistake> {
        let missing = || self.lacks(&format!("`{name}`, which {why}"));
        self.get(name).ok_or_else(missing)
    }

    /// That the sheet ends without something.
    pub fn lacks(&self, what: &str) -> Mistake {
        Mistake::new(self.last_line, format!("the sheet ends without {what}"))
    }

    /// Sees that an entry is not there; `why` says what it has no place in.
    pub fn refuse(&self, name: &str, why: &str) -> Result<(), Mistake> {
        match self.get(name) {
            None => Ok(()),
            Some(entry) => Err(Mistake::new(entry.line, format!("`{name}` {why}"))),
        }
    }
}

impl<'a> Entry<'a> {
    /// The one word beside an entry that has no items.
    pub fn only_word(&self, expected: &str) -> Result<&'a str, Mistake> {
        if let Some(item) = self.items.first() {
            let reason = format!("`{}` has no items below it", self.name);
            return Err(Mistake::new(item.number, reason));
        }
        match self.arguments[..] {
            [word] => Ok(word),
            _ => {
                let reason = format!("expected {expected} after `{}`, on its line", self.name);
                Err(Mistake::new(self.line, reason))
            }
        }
    }

    /// Sees that nothing stands beside the word.
    pub fn bare(&self) -> Result<(), Mistake> {
        match self.arguments.first() {
            None => Ok(()),
            Some(word) => {
                let found = quoted(word);
                let name = self.name;
                let reason = format!("expected the items of `{name}` on lines of their own below it, found {found} beside it");
                Err(Mistake::new(self.line, reason))
            }
        }
    }
}
