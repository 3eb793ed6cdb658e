//! The least-squares stencil.

use crate::mesh::Mesh;

/// The equations of a gradient by least squares, chained per cell, and the inverse of each cell's normal matrix.
#[derive(Clone, Debug, PartialEq)]
pub struct Stencil {
    pub(crate) number: u64,
    pub(crate) starts: Vec<usize>,
    pub(crate) equations: Vec<usize>,
    pub(crate) weights: Vec<f64>,
    pub(crate) inverses: Vec<f64>,
}

impl Stencil {
    /// A stencil to be handed out, with room for so many equation records.
    pub(crate) fn blank(mesh: &Mesh, room: usize) -> Self {
        Self {
            number: mesh.number(),
            starts: vec![0; mesh.cell_count()],
            equations: vec![0; 2 * room],
            weights: vec![0.0; 4 * room],
            inverses: vec![0.0; 9 * mesh.cell_count()],
        }
    }

    /// A stencil from slices that were kept, as [`Stencil::starts`] and those after it show them. They are
    /// looked at by the calls that are lent it: 2 where a length is wrong, 5 where a chain is broken.
    pub fn from_slices(
        mesh: &Mesh,
        starts: Vec<usize>,
        equations: Vec<usize>,
        weights: Vec<f64>,
        inverses: Vec<f64>,
    ) -> Self {
        Self {
            number: mesh.number(),
            starts,
            equations,
            weights,
            inverses,
        }
    }

    /// The number of the mesh it belongs to.
    pub fn number(&self) -> u64 {
        self.number
    }

    /// How many equation records it has room for; unused ones are zero.
    pub fn records(&self) -> usize {
        self.equations.len() / 2
    }

    /// Per cell: first equation record; records count from 1, and 0 is none.
    pub fn starts(&self) -> &[usize] {
        &self.starts
    }

    /// Per equation record: source, next record or 0. The source is 0 for a zero normal derivative, 1 for a
    /// fixed value, cell + 2 for a cell.
    pub fn equations(&self) -> &[usize] {
        &self.equations
    }

    /// Per equation record: coefficient, three numbers, and fixed value.
    pub fn weights(&self) -> &[f64] {
        &self.weights
    }

    /// Per cell: the nine numbers of the inverse, row by row.
    pub fn inverses(&self) -> &[f64] {
        &self.inverses
    }
}
