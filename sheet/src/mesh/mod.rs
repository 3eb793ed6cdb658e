//! The entries `points`, `faces`, `cells` and `face-order`: the mesh.

mod geometry;
mod order;
mod places;
mod points;

use crate::entries::Entries;
use crate::mistake::Mistake;
use crate::number::index;
use engine::{Dimension, Mesh};

/// The mesh of a sheet. Where `bare` is true, faces and cells may do without their geometry.
pub fn mesh(entries: &Entries<'_>, dimension: Dimension, bare: bool) -> Result<Mesh, Mistake> {
    let mesh = match entries.get("points") {
        Some(points) => {
            let why = "has no place beside `points`, from which centres and volumes are worked out";
            entries.refuse("cells", why)?;
            points::from_points(entries, dimension, points)?
        }
        None => geometry::from_geometry(entries, dimension, bare)?,
    };
    match entries.get("face-order") {
        None => Ok(mesh),
        Some(entry) => order::ordered(mesh, entry),
    }
}

/// The cells of a face line, `OWNER NEIGHBOUR` or `OWNER -`, and the words after them.
fn sides<'a>(words: &'a [&'a str]) -> Result<(usize, Option<usize>, &'a [&'a str]), String> {
    let [owner, neighbour, rest @ ..] = words else {
        return Err(
            "expected the face's owner and its neighbour, or `-` for no neighbour".to_string(),
        );
    };
    let neighbour = match *neighbour {
        "-" => None,
        cell => Some(index(cell, "cell").map_err(|reason| {
            format!("{reason}: the neighbour is a cell, or `-` where there is none")
        })?),
    };
    Ok((index(owner, "cell")?, neighbour, rest))
}
