//! Files as bytes.

use std::fs::File;
use std::io::{self, Read};
use std::path::Path;

/// The most bytes of a file that are read: sheets with the most faces and cells have less.
pub const MOST_BYTES: u64 = 1 << 26;

/// The bytes of a file, or why there are none.
///
/// # Errors
///
/// That it cannot be read, or is too long.
pub fn contents(path: &Path) -> Result<Vec<u8>, String> {
    all(File::open(path))
}

/// The bytes of standard input, or why there are none.
///
/// # Errors
///
/// As of [`contents`].
pub fn standard_input() -> Result<Vec<u8>, String> {
    all(Ok(io::stdin()))
}

fn all<R: Read>(opened: io::Result<R>) -> Result<Vec<u8>, String> {
    let mut bytes = Vec::new();
    let read = opened.and_then(|file| file.take(MOST_BYTES + 1).read_to_end(&mut bytes));
    match read {
        Err(error) => Err(format!("cannot be read: {error}")),
        Ok(_) if bytes.len() as u64 > MOST_BYTES => Err(format!(
            "has over {MOST_BYTES} bytes, the most that are read"
        )),
        Ok(_) => Ok(bytes),
    }
}
