//! The patches of a mesh.

use super::header::Dictionary;
use super::lists::{file, list};
use super::tokens::{Token, Tokens};
use crate::mistake::{quoted, AtLine, Mistake};
use crate::number::index;
use std::ops::Range;

/// A patch: a run of faces with one cell each.
#[derive(Clone, Debug, PartialEq, Eq)]
pub struct Patch {
    /// The line of its name.
    pub line: usize,
    pub name: String,
    pub kind: String,
    pub faces: Range<usize>,
    /// The patch that a cyclic one is joined to.
    pub neighbour: Option<String>,
}

/// Reads the file `boundary`.
pub fn patches(text: &str) -> Result<Vec<Patch>, Mistake> {
    let list = file(text, "patches", |tokens| list(tokens, "patches", patch))?;
    Ok(list.into_iter().map(|(_, patch)| patch).collect())
}

/// A patch, `name { type ...; nFaces ...; startFace ...; }`.
fn patch(tokens: &mut Tokens<'_>) -> Result<Patch, Mistake> {
    let spot = tokens.need("the name of a patch")?;
    let (Token::Word(name) | Token::Text(name)) = spot.token else {
        return Err(spot.unlike("the name of a patch"));
    };
    let line = spot.line;
    tokens.mark('{', &format!("`{{` after the patch {}", quoted(name)))?;
    let dictionary = Dictionary::read(tokens)?;
    let need = |key: &str| {
        let reason = format!("the patch {} has no `{key}`", quoted(name));
        dictionary.get(key)?.ok_or(Mistake::new(line, reason))
    };
    let number = |key: &str| {
        let (line, word) = need(key)?;
        let reason = |_| {
            format!(
                "expected a whole number to 65534 as `{key}`, found {}",
                quoted(word)
            )
        };
        index(word, "face").map_err(reason).at(line)
    };
    let (_, kind) = need("type")?;
    let (start, count) = (number("startFace")?, number("nFaces")?);
    known(&dictionary, line, name, kind)?;
    Ok(Patch {
        line,
        name: name.to_string(),
        kind: kind.to_string(),
        faces: start..start + count,
        neighbour: dictionary
            .get("neighbourPatch")?
            .map(|(_, word)| word.to_string()),
    })
}

/// Sees that a sheet can say what the patch is.
fn known(dictionary: &Dictionary<'_>, line: usize, name: &str, kind: &str) -> Result<(), Mistake> {
    let name = quoted(name);
    if kind != "cyclic" && (kind.starts_with("cyclic") || kind.starts_with("processor")) {
        let reason = format!("the patch {name} is of type {}: of the patches that join others only `cyclic` can be imported", quoted(kind));
        return Err(Mistake::new(line, reason));
    }
    match dictionary.get("transform")? {
        Some((line, "rotational")) => {
            let reason = format!(
                "the cyclic patch {name} is rotational, and a link of a sheet is a translation"
            );
            Err(Mistake::new(line, reason))
        }
        _ => Ok(()),
    }
}

/// Sees that the patches have each of the faces with one cell once.
pub fn check_cover(patches: &[Patch], boundary: Range<usize>) -> Result<(), Mistake> {
    let mut sorted: Vec<&Patch> = patches.iter().filter(|p| !p.faces.is_empty()).collect();
    sorted.sort_by_key(|patch| patch.faces.start);
    let mut next = boundary.start;
    for patch in sorted {
        if patch.faces.start != next || patch.faces.end > boundary.end {
            let reason = format!(
                "the patch {} has faces {} to {}: expected it to begin at face {next}, and faces end at {}",
                quoted(&patch.name),
                patch.faces.start,
                patch.faces.end - 1,
                boundary.end.saturating_sub(1)
            );
            return Err(Mistake::new(patch.line, reason));
        }
        next = patch.faces.end;
    }
    if next != boundary.end {
        let reason = format!("face {next} has one cell and belongs to no patch");
        return Err(Mistake::new(0, reason));
    }
    Ok(())
}
