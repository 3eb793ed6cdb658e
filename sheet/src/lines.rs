//! A file as lines of words, without comments.

use crate::mistake::Mistake;

/// A line that has words.
#[derive(Clone, Debug, PartialEq, Eq)]
pub struct Line<'a> {
    /// From 1.
    pub number: usize,
    /// At least one.
    pub words: Vec<&'a str>,
}

/// The text of a file, which has to be UTF-8; a byte order mark is left out.
pub fn text(bytes: &[u8]) -> Result<&str, Mistake> {
    let text = std::str::from_utf8(bytes).map_err(|error| {
        let before = &bytes[..error.valid_up_to()];
        let line = before.iter().filter(|&&byte| byte == b'\n').count() + 1;
        Mistake::new(line, "expected text in UTF-8, found other bytes")
    })?;
    Ok(text.strip_prefix('\u{feff}').unwrap_or(text))
}

/// The lines that have words. A `#` begins a comment, to the end of its line.
pub fn lines(text: &str) -> Vec<Line<'_>> {
    text.lines()
        .enumerate()
        .map(|(at, line)| Line {
            number: at + 1,
            words: without_comment(line).split_whitespace().collect(),
        })
        .filter(|line| !line.words.is_empty())
        .collect()
}

fn without_comment(line: &str) -> &str {
    line.find('#').map_or(line, |at| &line[..at])
}

/// The number of the last line.
pub fn last_line(text: &str) -> usize {
    text.lines().count().max(1)
}
