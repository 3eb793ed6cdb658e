//! The mass balance of a step in exact numbers.
//!
//! The terms of a cell are, for each face that names it, the face's flux where the cell is the owner and the
//! flux negated where it is the neighbour. Its outflow is their sum with rounding, its bound
//! (n − 1) × 2^-53 × the sum of the magnitudes of its n terms. Of an accepted step it is proved that every
//! outflow is within its cell's bound of the exact sum of the terms, and that all outflows together are within
//! the sum of the bounds of the exact flux through the faces with one cell. No cell of such a step has more than
//! 26 terms, so both hold with 25 for n − 1 too, the bound to quote where n is not told. This module works these
//! numbers out again, without rounding, for a report to show.
//!
//! ```
//! use juvandeer::balance::Amount;
//! let unit = Amount::of(f64::from_bits(1)).unwrap();
//! assert_eq!(unit.whole().to_string(), "1");
//! assert_eq!(unit.scientific(4), "4.941e-324");
//! assert_eq!(Amount::of(-2.5).unwrap().to_string(), "-2.5");
//! ```

pub use crate::amount::Amount;
pub use crate::whole::Whole;

use crate::fields::{CellField, FaceField};
use crate::mesh::Mesh;
use std::error::Error;
use std::fmt;

/// The largest n − 1: a cell of a step that is accepted has at most 26 terms.
const LARGEST_MULTIPLIER: u64 = 25;

/// The balance of one cell.
#[derive(Clone, Debug, PartialEq, Eq)]
pub struct CellBalance {
    /// How many terms it has.
    pub terms: usize,
    /// Its outflow.
    pub outflow: Amount,
    /// The exact sum of its terms.
    pub exact: Amount,
    /// How far the outflow is from the exact sum.
    pub difference: Amount,
    /// How far it may be.
    pub bound: Amount,
    /// The bound with 25 for n − 1, which is no smaller in a cell of at most 26 terms.
    pub quotable: Amount,
}

impl CellBalance {
    /// Whether the difference is within the bound.
    pub fn holds(&self) -> bool {
        self.difference <= self.bound
    }
}

/// The balance of all cells together.
#[derive(Clone, Debug, PartialEq, Eq)]
pub struct TotalBalance {
    /// The exact sum of the outflows.
    pub outflows: Amount,
    /// The exact flux through the faces with one cell, out of the mesh.
    pub boundary: Amount,
    /// How far they are from each other.
    pub difference: Amount,
    /// How far they may be: the sum of the cells' bounds.
    pub bound: Amount,
    /// The sum of the cells' bounds with 25 for n − 1.
    pub quotable: Amount,
}

impl TotalBalance {
    /// Whether the difference is within the bound.
    pub fn holds(&self) -> bool {
        self.difference <= self.bound
    }
}

/// The balance of each cell and of all together.
#[derive(Clone, Debug, PartialEq, Eq)]
pub struct Balance {
    /// Per cell.
    pub cells: Vec<CellBalance>,
    /// All together.
    pub total: TotalBalance,
}

/// Why there is no balance of a flux and outflows.
#[derive(Clone, Copy, Debug, PartialEq, Eq)]
#[non_exhaustive]
pub enum BalanceError {
    /// The flux or the outflow belongs to another mesh.
    MeshMismatch,
    /// The flux has not a value for each face, or the outflow not one for each cell.
    Length,
    /// The flux of a face is not finite.
    Flux {
        /// The face.
        face: usize,
    },
    /// The outflow of a cell is not finite.
    Outflow {
        /// The cell.
        cell: usize,
    },
}

impl fmt::Display for BalanceError {
    fn fmt(&self, f: &mut fmt::Formatter<'_>) -> fmt::Result {
        match self {
            Self::MeshMismatch => f.write_str("the flux or the outflow belongs to another mesh"),
            Self::Length => f.write_str("the flux or the outflow has not the mesh's length"),
            Self::Flux { face } => write!(f, "the flux of face {face} is not finite"),
            Self::Outflow { cell } => write!(f, "the outflow of cell {cell} is not finite"),
        }
    }
}

impl Error for BalanceError {}

/// What is summed of a cell's terms.
#[derive(Clone)]
struct Terms {
    count: usize,
    exact: Amount,
    magnitudes: Amount,
}

impl Terms {
    fn none() -> Self {
        Self {
            count: 0,
            exact: Amount::zero(),
            magnitudes: Amount::zero(),
        }
    }

    fn add(&mut self, term: &Amount) {
        self.count += 1;
        self.exact = self.exact.plus(term);
        self.magnitudes = self.magnitudes.plus(&term.magnitude());
    }

    fn balance(self, outflow: Amount) -> CellBalance {
        CellBalance {
            terms: self.count,
            difference: outflow.minus(&self.exact).magnitude(),
            bound: self.magnitudes.bound(self.count.saturating_sub(1) as u64),
            quotable: self.magnitudes.bound(LARGEST_MULTIPLIER),
            exact: self.exact,
            outflow,
        }
    }
}

impl Balance {
    /// The balance of outflows that were summed from a flux, as by [`Mesh::integrated_divergence`] or a step.
    ///
    /// # Errors
    ///
    /// Where the fields do not belong to the mesh or do not fit it, or are not finite.
    pub fn of(mesh: &Mesh, flux: &FaceField, outflow: &CellField) -> Result<Self, BalanceError> {
        check(mesh, flux, outflow)?;
        let (terms, boundary) = sums(mesh, flux)?;
        let mut cells = Vec::with_capacity(terms.len());
        for (cell, (terms, &outflow)) in terms.into_iter().zip(outflow.values()).enumerate() {
            let outflow = Amount::of(outflow).ok_or(BalanceError::Outflow { cell })?;
            cells.push(terms.balance(outflow));
        }
        let total = total(&cells, boundary);
        Ok(Self { cells, total })
    }

    /// Whether every cell's balance holds, and that of all together.
    pub fn holds(&self) -> bool {
        self.cells.iter().all(CellBalance::holds) && self.total.holds()
    }
}

fn check(mesh: &Mesh, flux: &FaceField, outflow: &CellField) -> Result<(), BalanceError> {
    if flux.number() != mesh.number() || outflow.number() != mesh.number() {
        return Err(BalanceError::MeshMismatch);
    }
    let fits =
        flux.values().len() == mesh.face_count() && outflow.values().len() == mesh.cell_count();
    if fits {
        Ok(())
    } else {
        Err(BalanceError::Length)
    }
}

/// The sums of each cell's terms, and the exact flux through the faces with one cell.
fn sums(mesh: &Mesh, flux: &FaceField) -> Result<(Vec<Terms>, Amount), BalanceError> {
    let mut cells = vec![Terms::none(); mesh.cell_count()];
    let mut boundary = Amount::zero();
    let faces = mesh.adjacency().chunks_exact(2).zip(flux.values());
    for (face, (pair, &flux)) in faces.enumerate() {
        let flux = Amount::of(flux).ok_or(BalanceError::Flux { face })?;
        cells[pair[0]].add(&flux);
        match pair[1].checked_sub(1) {
            None => boundary = boundary.plus(&flux),
            Some(neighbour) => cells[neighbour].add(&flux.negated()),
        }
    }
    Ok((cells, boundary))
}

fn total(cells: &[CellBalance], boundary: Amount) -> TotalBalance {
    let sum = |of: fn(&CellBalance) -> &Amount| {
        cells
            .iter()
            .fold(Amount::zero(), |sum, cell| sum.plus(of(cell)))
    };
    let outflows = sum(|cell| &cell.outflow);
    TotalBalance {
        difference: outflows.minus(&boundary).magnitude(),
        bound: sum(|cell| &cell.bound),
        quotable: sum(|cell| &cell.quotable),
        outflows,
        boundary,
    }
}

/// A line per cell and one for all together, as decimals of six digits.
impl fmt::Display for Balance {
    fn fmt(&self, f: &mut fmt::Formatter<'_>) -> fmt::Result {
        writeln!(f, "cell terms outflow exact difference bound")?;
        for (cell, balance) in self.cells.iter().enumerate() {
            let terms = balance.terms;
            let [outflow, exact, difference, bound] = [
                &balance.outflow,
                &balance.exact,
                &balance.difference,
                &balance.bound,
            ]
            .map(|amount| amount.scientific(6));
            writeln!(f, "{cell} {terms} {outflow} {exact} {difference} {bound}")?;
        }
        let total = &self.total;
        let [outflows, boundary, difference, bound] = [
            &total.outflows,
            &total.boundary,
            &total.difference,
            &total.bound,
        ]
        .map(|amount| amount.scientific(6));
        write!(
            f,
            "outflows {outflows} boundary {boundary} difference {difference} bound {bound}"
        )
    }
}
