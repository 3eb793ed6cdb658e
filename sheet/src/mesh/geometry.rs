//! A mesh from the geometry of its faces and cells.

use super::places::Places;
use super::sides;
use crate::entries::Entries;
use crate::fields::{vector, width};
use crate::items::all;
use crate::mistake::{AtLine, Mistake};
use crate::number::number;
use engine::{root, Cell, Dimension, Face, Mesh, Vec3};

/// Takes centres, areas, normals and volumes as they are.
pub fn from_geometry(
    entries: &Entries<'_>,
    dimension: Dimension,
    bare: bool,
) -> Result<Mesh, Mistake> {
    let entry = entries.need("faces", "every sheet needs")?;
    let face_items = all(entry, "face")?;
    let why = "a mesh without `points` needs, with centres and volumes";
    let cell_items = all(entries.need("cells", why)?, "cell")?;
    let faces: Vec<Face> = face_items
        .iter()
        .map(|item| face(dimension, bare, item.words).at(item.line))
        .collect::<Result<_, _>>()?;
    let cells: Vec<Cell> = cell_items
        .iter()
        .map(|item| cell(dimension, bare, item.words).at(item.line))
        .collect::<Result<_, _>>()?;
    Mesh::from_faces(dimension, &faces, &cells).map_err(|error| {
        let places = Places {
            points: &[],
            faces: &face_items,
            cells: &cell_items,
            heading: entry.line,
        };
        places.mistake(&error)
    })
}

/// A face line: owner, neighbour, centre, area vector and, where it is given, normal.
fn face(dimension: Dimension, bare: bool, words: &[&str]) -> Result<Face, String> {
    let (owner, neighbour, rest) = sides(words)?;
    let d = width(dimension);
    let at = |part: usize| vector(dimension, &rest[part * d..(part + 1) * d]);
    let (center, area_vector, normal) = match rest.len() {
        0 if bare => ([0.0; 3], [0.0; 3], [0.0; 3]),
        count if count == 2 * d => (at(0)?, at(1)?, unit(at(1)?)?),
        count if count == 3 * d => (at(0)?, at(1)?, at(2)?),
        count => {
            let alone = if bare { "nothing, or " } else { "" };
            return Err(format!(
                "expected {alone}a centre and an area vector, and a normal or none, after the face's cells: {} or {} numbers, found {count}",
                2 * d,
                3 * d
            ));
        }
    };
    Ok(Face {
        owner,
        neighbour,
        center,
        area_vector,
        normal,
    })
}

/// The unit normal of an area vector: each number over the length.
fn unit(area: Vec3) -> Result<Vec3, String> {
    let length = root(area[0] * area[0] + area[1] * area[1] + area[2] * area[2]);
    if length.is_finite() && length > 0.0 {
        Ok(area.map(|x| x / length))
    } else {
        Err("the area vector's length is 0 or not finite: give the normal after it".to_string())
    }
}

/// A cell line: centre and volume, or the volume alone where no geometry is needed.
fn cell(dimension: Dimension, bare: bool, words: &[&str]) -> Result<Cell, String> {
    let d = width(dimension);
    match words.split_last() {
        Some((volume, [])) if bare => Ok(Cell {
            center: [0.0; 3],
            volume: number(volume)?,
        }),
        Some((volume, center)) if center.len() == d => Ok(Cell {
            center: vector(dimension, center)?,
            volume: number(volume)?,
        }),
        _ => {
            let alone = if bare { "a volume, or " } else { "" };
            Err(format!(
                "expected {alone}a centre and a volume, {} numbers, found {}",
                d + 1,
                words.len()
            ))
        }
    }
}
