//! The entries `conditions` and `links`.

use crate::entries::{Entries, Entry};
use crate::fields::{field, scalar, vector, Place};
use crate::items::within;
use crate::mistake::{quoted, AtLine, Mistake};
use crate::number::index;
use engine::{Condition, Conditions, Mesh};

/// The conditions and links of a sheet. Without `conditions`, or where it names no face, a condition is absent.
pub fn conditions(entries: &Entries<'_>, mesh: &Mesh) -> Result<Conditions, Mistake> {
    let mut conditions = match entries.get("conditions") {
        None => Conditions::absent(mesh),
        Some(entry) => {
            let absent = |_| Some(Condition::Absent);
            let list = field(entry, Place::faces(mesh), absent, condition)?;
            Conditions::new(mesh, &list)
        }
    };
    if let Some(entry) = entries.get("links") {
        link_all(entry, mesh, &mut conditions)?;
    }
    Ok(conditions)
}

fn condition(words: &[&str]) -> Result<Condition, String> {
    match words {
        ["absent"] => Ok(Condition::Absent),
        ["zero-gradient"] => Ok(Condition::ZeroGradient),
        ["fixed-value", value @ ..] => scalar(value).map(Condition::FixedValue),
        _ => Err(format!(
            "expected `absent`, `zero-gradient` or `fixed-value` and a number, found {}",
            quoted(&words.join(" "))
        )),
    }
}

fn link_all(entry: &Entry<'_>, mesh: &Mesh, conditions: &mut Conditions) -> Result<(), Mistake> {
    entry.bare()?;
    for line in &entry.items {
        link(&line.words, mesh, conditions).at(line.number)?;
    }
    Ok(())
}

/// A line `FACE PEER TRANSLATION`.
fn link(words: &[&str], mesh: &Mesh, conditions: &mut Conditions) -> Result<(), String> {
    let [face, peer, translation @ ..] = words else {
        return Err("expected two faces and a translation".to_string());
    };
    let (face, peer) = (index(face, "face")?, index(peer, "face")?);
    for face in [face, peer] {
        within(face, mesh.face_count(), "face")?;
        if let Some(other) = conditions.peer(face) {
            return Err(format!("face {face} is linked already, to face {other}"));
        }
    }
    let translation = vector(mesh.dimension(), translation)?;
    let linked = conditions.link(face, peer, translation);
    linked.map(|_| ()).map_err(|error| error.to_string())
}
