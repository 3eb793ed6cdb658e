//! The files of a folder.

use crate::files::contents;
use crate::mistake::Mistake;
use std::path::Path;

/// A folder whose files are read.
pub struct Folder<'a> {
    path: &'a Path,
}

impl<'a> Folder<'a> {
    pub fn at(path: &'a Path) -> Self {
        Self { path }
    }

    pub fn name(&self) -> String {
        self.path.display().to_string()
    }

    /// The path of a file in it, as text.
    pub fn path(&self, file: &str) -> String {
        self.path.join(file).display().to_string()
    }

    /// A mistake in a file.
    pub fn told(&self, file: &str, mistake: &Mistake) -> String {
        mistake.in_file(&self.path(file))
    }

    /// Reads a file, whose text goes to `parse`. Bytes that are no text are left to it as marks of their own.
    pub fn read<T>(
        &self,
        file: &str,
        parse: impl FnOnce(&str) -> Result<T, Mistake>,
    ) -> Result<T, String> {
        let bytes = self.bytes(file)?;
        let text = String::from_utf8_lossy(&bytes);
        parse(&text).map_err(|mistake| self.told(file, &mistake))
    }

    fn bytes(&self, file: &str) -> Result<Vec<u8>, String> {
        let bytes = contents(&self.path.join(file));
        bytes.map_err(|reason| format!("{}: {reason}{}", self.path(file), self.hint(file)))
    }

    /// What may have been meant where a file is missing.
    fn hint(&self, file: &str) -> String {
        let inner = self.path.join("constant").join("polyMesh");
        if inner.join(file).is_file() {
            return format!(" (the mesh of a case is in {})", inner.display());
        }
        if self.path.join(format!("{file}.gz")).is_file() {
            return format!(" (unpack {file}.gz first)");
        }
        String::new()
    }
}
