//! A line's end in the programs that write what an output holds.

use crate::calls::Outcome;
use crate::entry::Entry;
use crate::lent::Slices;
use crate::makers;
use std::fmt::Write;

/// The answer of a call, and what its outputs hold after it, refused or not.
pub fn told(entry: Entry, outcome: &Outcome, outputs: &Slices) -> String {
    let mut contents = outcome.contents(entry, outputs);
    makers::canonical(&mut contents);
    let mut text = match outcome {
        Outcome::Accepted(_) => "accepted,".to_string(),
        Outcome::Refused(refusal) => {
            format!("refused {} at {},", refusal.number, refusal.index)
        }
    };
    for &part in entry.outputs() {
        text += &words(&contents.slice(part).words());
    }
    text
}

/// Each word after a space.
pub fn words(words: &[u64]) -> String {
    let mut text = String::new();
    for word in words {
        let _ = write!(text, " {word:016x}");
    }
    text
}
