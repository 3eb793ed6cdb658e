//! A mesh from points.

use super::places::Places;
use super::sides;
use crate::closed::unclosed;
use crate::entries::{Entries, Entry};
use crate::fields::vector;
use crate::items::{each, Item};
use crate::mistake::{AtLine, Mistake};
use crate::number::index;
use engine::{Dimension, Mesh, Vec3};

/// Works the geometry out, and sees that every cell is closed.
pub fn from_points(
    entries: &Entries<'_>,
    dimension: Dimension,
    points: &Entry<'_>,
) -> Result<Mesh, Mistake> {
    let point_items = each(points, "point")?;
    let positions: Vec<Vec3> = point_items
        .iter()
        .map(|item| vector(dimension, item.words).at(item.line))
        .collect::<Result<_, _>>()?;
    let entry = entries.need("faces", "every sheet needs")?;
    let face_items = each(entry, "face")?;
    let (faces, owners, neighbours) = faces(&face_items)?;
    let places = Places {
        points: &point_items,
        faces: &face_items,
        cells: &[],
        heading: entry.line,
    };
    let mesh = Mesh::from_points(dimension, &positions, &faces, &owners, &neighbours);
    let mesh = mesh.map_err(|error| places.mistake(&error))?;
    match unclosed(&mesh) {
        None => Ok(mesh),
        Some(found) => Err(places.unclosed(&found)),
    }
}

/// The points of each face, the owners, and the neighbours of the faces that have one, which come first.
type Faces = (Vec<Vec<usize>>, Vec<usize>, Vec<usize>);

fn faces(items: &[Item<'_>]) -> Result<Faces, Mistake> {
    let (mut faces, mut owners, mut neighbours) = (Vec::new(), Vec::new(), Vec::new());
    for (face, item) in items.iter().enumerate() {
        let (owner, neighbour, corners) = sides(item.words).at(item.line)?;
        owners.push(owner);
        match neighbour {
            Some(_) if neighbours.len() < face => {
                let reason = format!("face {face} has two cells and face {} one: among faces made of points, those with two cells come first", face - 1);
                return Err(Mistake::new(item.line, reason));
            }
            Some(cell) => neighbours.push(cell),
            None => {}
        }
        let corners = corners.iter().map(|word| index(word, "point"));
        faces.push(corners.collect::<Result<Vec<_>, _>>().at(item.line)?);
    }
    Ok((faces, owners, neighbours))
}
