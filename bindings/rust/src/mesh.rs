//! The mesh in the form in which it is lent to the engine.

use crate::chains::{self, Chains};
use crate::distances::FACE_NUMBERS;
use crate::error::BuildError;
use crate::ffi::Counts;
use std::sync::atomic::{AtomicU64, Ordering};

/// A point or a vector: x, y, z. In 2D z is 0.
pub type Vec3 = [f64; 3];

/// The number of the next mesh, from 1.
static NEXT_NUMBER: AtomicU64 = AtomicU64::new(1);

/// The dimension of a mesh.
#[derive(Clone, Copy, Debug, PartialEq, Eq, Hash)]
pub enum Dimension {
    /// In the plane z = 0: a face is an edge, its area a length, and a cell's volume an area.
    Two,
    /// In space.
    Three,
}

impl Dimension {
    pub(crate) fn count(self) -> usize {
        match self {
            Self::Two => 2,
            Self::Three => 3,
        }
    }
}

/// A face. Faces count from 0.
#[derive(Clone, Copy, Debug, PartialEq)]
pub struct Face {
    /// The cell that its area vector points out of.
    pub owner: usize,
    /// The cell on the other side, where there is one.
    pub neighbour: Option<usize>,
    /// Its centre.
    pub center: Vec3,
    /// Its area as a vector, out of the owner; in 2D of the edge's length.
    pub area_vector: Vec3,
    /// Its unit normal, out of the owner.
    pub normal: Vec3,
}

/// A cell. Cells count from 0.
#[derive(Clone, Copy, Debug, PartialEq)]
pub struct Cell {
    /// Its centre.
    pub center: Vec3,
    /// Its volume; in 2D its area.
    pub volume: f64,
}

/// A mesh: who is beside whom, and where. It is built once and not changed.
///
/// Each mesh that is built has a number of its own, which fields, conditions and stencils made for it carry;
/// the engine refuses with 3 what carries another. A clone is the same mesh and has the same number.
#[derive(Clone, Debug)]
pub struct Mesh {
    number: u64,
    dimension: Dimension,
    adjacency: Vec<usize>,
    /// With the distances of a mesh without links.
    pub(crate) geometry: Vec<f64>,
    places: Vec<f64>,
    chains: Chains,
    room: usize,
}

impl Mesh {
    /// A mesh from its faces and cells. Areas, normals, centres and volumes are taken as they are; the distances
    /// that each face carries are the engine's, [`Mesh::face_distances`]. The chain of a cell's faces is in the
    /// order of `faces`, that of its neighbours in the order of the cells, each once.
    ///
    /// A mesh with no cell, or with more cells or faces than the engine takes, is built: every call with it is
    /// refused with 1. So is one with more than 26 faces to a cell: every call that looks at faces is refused
    /// with 14.
    ///
    /// # Errors
    ///
    /// [`BuildError::MissingCell`] and [`BuildError::NeighbourIsOwner`], of the first such face.
    pub fn from_faces(
        dimension: Dimension,
        faces: &[Face],
        cells: &[Cell],
    ) -> Result<Self, BuildError> {
        let mut adjacency = Vec::with_capacity(2 * faces.len());
        let mut geometry = Vec::with_capacity(FACE_NUMBERS * faces.len());
        for (face, record) in faces.iter().enumerate() {
            check_cells(face, record.owner, record.neighbour, cells.len())?;
            adjacency.push(record.owner);
            adjacency.push(record.neighbour.map_or(0, |cell| cell + 1));
            geometry.extend(record.center);
            geometry.extend(record.area_vector);
            geometry.extend(record.normal);
            geometry.extend([0.0; 2]);
        }
        let mut places = Vec::with_capacity(4 * cells.len());
        for cell in cells {
            places.extend(cell.center);
            places.push(cell.volume);
        }
        let facing = chains::faces_of_cells(&adjacency, cells.len());
        let bordering = chains::neighbours_of_cells(&adjacency, cells.len());
        let mut mesh = Self {
            number: next_number(),
            dimension,
            room: chains::room(dimension, &facing, &bordering),
            chains: Chains::of(&facing, &bordering),
            adjacency,
            geometry,
            places,
        };
        mesh.geometry = mesh.geometry_with(&vec![0; 2 * faces.len()]);
        Ok(mesh)
    }

    /// The same mesh with another order of each cell's faces, in which the stencil takes its equations and
    /// sums them. It has a new number.
    ///
    /// # Errors
    ///
    /// [`BuildError::Count`] where there is not an order for each cell, and [`BuildError::FaceOrder`] where one
    /// does not name each of the cell's faces once.
    pub fn with_face_order(mut self, order: &[Vec<usize>]) -> Result<Self, BuildError> {
        if order.len() != self.cell_count() {
            return Err(BuildError::Count {
                list: "orders of faces",
                expected: self.cell_count(),
                found: order.len(),
            });
        }
        let facing = chains::faces_of_cells(&self.adjacency, self.cell_count());
        for (cell, (faces, given)) in facing.iter().zip(order).enumerate() {
            let mut sorted = given.clone();
            sorted.sort_unstable();
            if sorted != *faces {
                return Err(BuildError::FaceOrder { cell });
            }
        }
        let bordering = chains::neighbours_of_cells(&self.adjacency, self.cell_count());
        self.chains = Chains::of(order, &bordering);
        self.number = next_number();
        Ok(self)
    }

    /// The mesh's number.
    pub fn number(&self) -> u64 {
        self.number
    }

    /// Its dimension.
    pub fn dimension(&self) -> Dimension {
        self.dimension
    }

    /// How many cells it has.
    pub fn cell_count(&self) -> usize {
        self.places.len() / 4
    }

    /// How many faces it has.
    pub fn face_count(&self) -> usize {
        self.adjacency.len() / 2
    }

    /// A face, where it is there.
    pub fn face(&self, face: usize) -> Option<Face> {
        let [owner, neighbour] = *self.adjacency.chunks_exact(2).nth(face)? else {
            return None;
        };
        let geometry = self.geometry.chunks_exact(FACE_NUMBERS).nth(face)?;
        Some(Face {
            owner,
            neighbour: neighbour.checked_sub(1),
            center: vector(geometry, 0),
            area_vector: vector(geometry, 3),
            normal: vector(geometry, 6),
        })
    }

    /// A cell, where it is there.
    pub fn cell(&self, cell: usize) -> Option<Cell> {
        let place = self.places.chunks_exact(4).nth(cell)?;
        Some(Cell {
            center: vector(place, 0),
            volume: place[3],
        })
    }

    /// Room for the equation records of any stencil of this mesh, whatever its conditions: a record for each
    /// face of each cell and, in 2D, for each cell of its second ring; at most 65,535, the most that the engine
    /// takes. A stencil that does not fit is one that fits into no room, and is refused with 1 at index 0.
    pub fn stencil_room(&self) -> usize {
        self.room
    }

    /// Per face: owner, neighbour + 1 or 0.
    pub fn adjacency(&self) -> &[usize] {
        &self.adjacency
    }

    /// Per face: centre, area vector, normal, three numbers each; own and other distance, as they are without
    /// links, +0.0 where the engine refuses the mesh with 1 or 14. [`Mesh::geometry_under`] has those with links.
    pub fn geometry(&self) -> &[f64] {
        &self.geometry
    }

    /// Per cell: centre, three numbers, and volume.
    pub fn places(&self) -> &[f64] {
        &self.places
    }

    /// Per cell: first face record, first neighbour record; records count from 1, and 0 is none.
    pub fn heads(&self) -> &[usize] {
        &self.chains.heads
    }

    /// Per face record: face, next record or 0.
    pub fn facing(&self) -> &[usize] {
        &self.chains.facing
    }

    /// Per neighbour record: cell, next record or 0.
    pub fn bordering(&self) -> &[usize] {
        &self.chains.bordering
    }

    pub(crate) fn counts(&self) -> Counts {
        Counts {
            mesh: self.number,
            dimension: self.dimension.count(),
            cells: self.cell_count(),
            faces: self.face_count(),
            face_records: self.chains.facing.len() / 2,
            neighbour_records: self.chains.bordering.len() / 2,
        }
    }
}

fn next_number() -> u64 {
    NEXT_NUMBER.fetch_add(1, Ordering::Relaxed)
}

fn vector(numbers: &[f64], at: usize) -> Vec3 {
    [numbers[at], numbers[at + 1], numbers[at + 2]]
}

/// Sees that a face's cells are there and differ.
pub(crate) fn check_cells(
    face: usize,
    owner: usize,
    neighbour: Option<usize>,
    cells: usize,
) -> Result<(), BuildError> {
    for cell in [Some(owner), neighbour].into_iter().flatten() {
        if cell >= cells {
            return Err(BuildError::MissingCell { face, cell, cells });
        }
    }
    if neighbour == Some(owner) {
        return Err(BuildError::NeighbourIsOwner { face });
    }
    Ok(())
}
