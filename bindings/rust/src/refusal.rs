//! What the engine answers where it does not accept.

use crate::ffi;
use std::error::Error;
use std::fmt;

/// Why a call was refused. The numbers are the engine's; docs/REFUSALS.md of the repository has what each
/// means and what to do about it.
#[derive(Clone, Copy, Debug, PartialEq, Eq, Hash)]
#[non_exhaustive]
pub enum RefusalKind {
    /// 1: no cell; over 65,535 cells, faces, chain entries or equation records; or too little room for a
    /// stencil's equations.
    Size,
    /// 2: a slice's length differs from its count, as of a field with too few values.
    Length,
    /// 3: a field, the conditions or a stencil belong to another mesh.
    MeshMismatch,
    /// 4: a face's owner or neighbour names no cell, its neighbour is its owner, or its condition code is
    /// unknown.
    BadFace,
    /// 5: a cell's chain of faces, neighbours or equations is broken.
    BrokenChain,
    /// 6: a link stands on a face with two cells, or its peer is itself, missing, or not linked back.
    BadLink,
    /// 7: the centres of a face's two cells, of its cell and the one beyond its link, or of its cell and the
    /// face are too near to each other or at no finite distance.
    DegenerateDistance,
    /// 8: a cell's equations do not fix its gradient.
    SingularLeastSquaresStencil,
    /// 9: a face's coefficient is not finite or not above 0, or a flux, an outflow or a metric is not finite.
    InvalidPressureFaceCoefficient,
    /// 10: a face with one cell and no link has no condition.
    MissingBoundaryCondition,
    /// 11: a cell's momentum diagonal or response is not finite or not above 0, or its velocity is not finite.
    InvalidMomentumDiagonal,
    /// 12: a cell's volume is at most 0 or, where outflows are divided by it, not finite.
    InvalidCellMeasure,
    /// 14: a cell has more than 26 faces, or more than 26 records in its chain of faces.
    CrowdedCell,
    /// 20: a distance that a face carries is not, bit for bit, the one that the geometry gives.
    WrongDistance,
    /// A number that these bindings do not know.
    Other(u64),
}

/// The numbers in use and their kinds.
const KINDS: [(u64, RefusalKind); 14] = [
    (1, RefusalKind::Size),
    (2, RefusalKind::Length),
    (3, RefusalKind::MeshMismatch),
    (4, RefusalKind::BadFace),
    (5, RefusalKind::BrokenChain),
    (6, RefusalKind::BadLink),
    (7, RefusalKind::DegenerateDistance),
    (8, RefusalKind::SingularLeastSquaresStencil),
    (9, RefusalKind::InvalidPressureFaceCoefficient),
    (10, RefusalKind::MissingBoundaryCondition),
    (11, RefusalKind::InvalidMomentumDiagonal),
    (12, RefusalKind::InvalidCellMeasure),
    (14, RefusalKind::CrowdedCell),
    (20, RefusalKind::WrongDistance),
];

impl RefusalKind {
    /// The kind that a number stands for.
    pub fn from_number(number: u64) -> Self {
        let row = KINDS.iter().find(|&&(known, _)| known == number);
        row.map_or(Self::Other(number), |&(_, kind)| kind)
    }

    /// The number of the kind.
    pub fn number(self) -> u64 {
        match self {
            Self::Other(number) => number,
            kind => {
                let row = KINDS.iter().find(|&&(_, known)| known == kind);
                row.map_or(0, |&(number, _)| number)
            }
        }
    }
}

/// A call that the engine refused: why, and at which face or cell. What a call hands out is then dropped.
#[derive(Clone, Copy, Debug, PartialEq, Eq, Hash)]
pub struct Refusal {
    /// Why.
    pub kind: RefusalKind,
    /// The face or cell, as the kind says, for 4, 5, 6, 14 and 20 the lowest such one; 0 where none is named.
    pub index: usize,
}

impl Refusal {
    /// The refusal of a number and an index.
    pub fn new(number: u64, index: usize) -> Self {
        Self {
            kind: RefusalKind::from_number(number),
            index,
        }
    }

    /// The engine's sentence; none where the number is outside the engine's table. Refusals that differ in
    /// number or index never have the same.
    ///
    /// ```
    /// use juvandeer::Refusal;
    /// let refusal = Refusal::new(6, 7);
    /// assert_eq!(refusal.sentence().as_deref(), Some("bad link at 7."));
    /// assert_eq!(refusal.to_string(), "bad link at 7.");
    /// ```
    pub fn sentence(&self) -> Option<String> {
        let (number, index) = (self.kind.number(), self.index);
        let mut text = vec![0; ffi::refusal_sentence(number, index, &mut [])];
        ffi::refusal_sentence(number, index, &mut text);
        let sentence = String::from_utf8(text).ok();
        sentence.filter(|sentence| !sentence.is_empty())
    }

    /// What is wrong, in words.
    pub fn reason(&self) -> String {
        let index = self.index;
        match self.kind {
            RefusalKind::Size => "the mesh has no cell, over 65,535 cells, faces, chain entries or equation records, or there is too little room for the stencil's equations".to_string(),
            RefusalKind::Length => "a field or another slice has more or fewer values than the mesh asks for".to_string(),
            RefusalKind::MeshMismatch => "a field, the conditions or the stencil belong to another mesh".to_string(),
            RefusalKind::BadFace => format!("face {index} names a cell that is not there, has its owner as neighbour, or has an unknown condition code"),
            RefusalKind::BrokenChain => format!("cell {index} has a broken chain of faces, neighbours or equations"),
            RefusalKind::BadLink => format!("face {index} has a link but two cells, or is linked to itself, to a missing face or to one that is not linked back"),
            RefusalKind::DegenerateDistance => format!("face {index} has centres that are too near to each other or at no finite distance: of its two cells, of its cell and the one beyond its link, or of its cell and itself"),
            RefusalKind::SingularLeastSquaresStencil => format!("cell {index} has too few equations in different directions to fix a gradient"),
            RefusalKind::InvalidPressureFaceCoefficient if index == 0 => "face 0 has a coefficient that is not finite or not above 0 or a flux that is not finite, or an outflow or a metric is not finite".to_string(),
            RefusalKind::InvalidPressureFaceCoefficient => format!("face {index} has a coefficient that is not finite or not above 0, or a flux that is not finite"),
            RefusalKind::MissingBoundaryCondition => format!("face {index} has one cell and neither a link nor a condition"),
            RefusalKind::InvalidMomentumDiagonal => format!("cell {index} has a momentum diagonal or response that is not finite or not above 0, or a velocity that is not finite"),
            RefusalKind::InvalidCellMeasure => format!("cell {index} has a volume that is at most 0 or, where outflows are divided by it, not finite"),
            RefusalKind::CrowdedCell => format!("cell {index} has more than 26 faces"),
            RefusalKind::WrongDistance => format!("face {index} carries a distance that is not, bit for bit, the one that the geometry gives"),
            RefusalKind::Other(number) => format!("{number} is a number that these bindings do not know"),
        }
    }
}

/// The engine's sentence; where it has none, the number and the index.
impl fmt::Display for Refusal {
    fn fmt(&self, f: &mut fmt::Formatter<'_>) -> fmt::Result {
        match self.sentence() {
            Some(sentence) => f.write_str(&sentence),
            None => write!(f, "number {}, index {}", self.kind.number(), self.index),
        }
    }
}

impl Error for Refusal {}
