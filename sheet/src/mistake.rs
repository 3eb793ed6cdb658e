//! A mistake in a file, with its line.

/// A line, counted from 1, and what is wrong there. Line 0 is the file as a whole.
#[derive(Clone, Debug, PartialEq, Eq)]
pub struct Mistake {
    /// The line.
    pub line: usize,
    /// What is wrong, and what was expected.
    pub reason: String,
}

impl Mistake {
    pub(crate) fn new(line: usize, reason: impl Into<String>) -> Self {
        Self {
            line,
            reason: reason.into(),
        }
    }

    /// As `FILE:LINE: reason`.
    pub fn in_file(&self, file: &str) -> String {
        match self.line {
            0 => format!("{file}: {}", self.reason),
            line => format!("{file}:{line}: {}", self.reason),
        }
    }
}

/// Gives a reason its line.
pub(crate) trait AtLine<T> {
    fn at(self, line: usize) -> Result<T, Mistake>;
}

impl<T> AtLine<T> for Result<T, String> {
    fn at(self, line: usize) -> Result<T, Mistake> {
        self.map_err(|reason| Mistake::new(line, reason))
    }
}

/// A word of a file as it is shown in a reason: cut where it is long, and without control characters.
pub(crate) fn quoted(word: &str) -> String {
    let shown: String = word.chars().take(40).flat_map(char::escape_debug).collect();
    let rest = if word.chars().nth(40).is_some() {
        "..."
    } else {
        ""
    };
    format!("`{shown}{rest}`")
}
