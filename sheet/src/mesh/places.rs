//! Where the parts of a mesh stand in the file, for mistakes that name a part.

use super::sides;
use crate::closed::Unclosed;
use crate::items::Item;
use crate::mistake::Mistake;
use engine::BuildError;

/// The items of a mesh.
pub struct Places<'a> {
    pub points: &'a [Item<'a>],
    pub faces: &'a [Item<'a>],
    pub cells: &'a [Item<'a>],
    pub heading: usize,
}

impl Places<'_> {
    /// An error of the mesh, at the line of the face, point or cell that it names.
    pub fn mistake(&self, error: &BuildError) -> Mistake {
        let line = match *error {
            BuildError::MissingCell { face, .. }
            | BuildError::NeighbourIsOwner { face }
            | BuildError::MissingPoint { face, .. }
            | BuildError::FacePoints { face, .. }
            | BuildError::NoArea { face } => self.faces.get(face),
            BuildError::BadPoint { point } => self.points.get(point),
            BuildError::NoVolume { cell, .. } => self.cells.get(cell).or(self.first_of(cell)),
            _ => None,
        };
        let line = line.map_or(self.heading, |item| item.line);
        Mistake::new(line, error.to_string())
    }

    /// A cell that is not closed, at the face that is turned or at its first one.
    pub fn unclosed(&self, found: &Unclosed) -> Mistake {
        let turned = found.turned.and_then(|face| self.faces.get(face));
        let line = turned.or(self.first_of(found.cell));
        let line = line.map_or(self.heading, |item| item.line);
        Mistake::new(line, found.to_string())
    }

    /// The first face that names a cell.
    fn first_of(&self, cell: usize) -> Option<&Item<'_>> {
        let names = |item: &&Item<'_>| {
            let (owner, neighbour, _) = sides(item.words).ok()?;
            (owner == cell || neighbour == Some(cell)).then_some(())
        };
        self.faces.iter().find(|item| names(item).is_some())
    }
}
