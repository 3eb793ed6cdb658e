//! Mistakes in what a mesh or conditions are built from.

use std::error::Error;
use std::fmt;

/// A mistake of the caller, found before the engine is called.
#[derive(Clone, Debug, PartialEq)]
#[non_exhaustive]
pub enum BuildError {
    /// A face names a cell that is not there.
    MissingCell {
        /// The face.
        face: usize,
        /// The cell it names.
        cell: usize,
        /// How many cells there are.
        cells: usize,
    },
    /// A face has its owner as neighbour.
    NeighbourIsOwner {
        /// The face.
        face: usize,
    },
    /// A face names a point that is not there.
    MissingPoint {
        /// The face.
        face: usize,
        /// The point it names.
        point: usize,
        /// How many points there are.
        points: usize,
    },
    /// A face has too few points, or in 2D too many.
    FacePoints {
        /// The face.
        face: usize,
        /// How many points it has.
        found: usize,
    },
    /// A point has a coordinate that is not finite, or in 2D one along z that is not 0.
    BadPoint {
        /// The point.
        point: usize,
    },
    /// The area vector of a face is zero or not finite.
    NoArea {
        /// The face.
        face: usize,
    },
    /// The volume of a cell is not finite or not above 0: it has too few faces, or a face's points turn the
    /// wrong way.
    NoVolume {
        /// The cell.
        cell: usize,
        /// The volume that was worked out.
        volume: f64,
    },
    /// No face names a cell, though one names a higher cell.
    NoFace {
        /// The cell.
        cell: usize,
    },
    /// A list has not one entry for each face, or for each cell.
    Count {
        /// What the list holds.
        list: &'static str,
        /// How many entries it should have, at most so many for neighbours.
        expected: usize,
        /// How many it has.
        found: usize,
    },
    /// The order given for a cell's faces is not one of its own faces, each once.
    FaceOrder {
        /// The cell.
        cell: usize,
    },
    /// A condition or a link is set at a face that is not there.
    MissingFace {
        /// The face.
        face: usize,
        /// How many faces there are.
        faces: usize,
    },
}

impl fmt::Display for BuildError {
    fn fmt(&self, f: &mut fmt::Formatter<'_>) -> fmt::Result {
        match self {
            Self::MissingCell { face, cell, cells } => {
                write!(f, "face {face} names cell {cell}, and there are {cells} cells, from 0")
            }
            Self::NeighbourIsOwner { face } => {
                write!(f, "face {face} has its owner as neighbour")
            }
            Self::MissingPoint { face, point, points } => write!(
                f,
                "face {face} names point {point}, and there are {points} points, from 0"
            ),
            Self::FacePoints { face, found } => write!(
                f,
                "face {face} has {found} points: it needs two in 2D, and three or more in 3D"
            ),
            Self::BadPoint { point } => write!(
                f,
                "point {point} has a coordinate that is not finite, or in 2D a z that is not 0"
            ),
            Self::NoArea { face } => {
                write!(f, "face {face} has an area that is zero or not finite")
            }
            Self::NoVolume { cell, volume } => write!(
                f,
                "cell {cell} has volume {volume}: a face is missing, or its points turn the wrong way"
            ),
            Self::NoFace { cell } => {
                write!(f, "no face names cell {cell}, though one names a higher cell")
            }
            Self::Count { list, expected, found } => write!(
                f,
                "the list of {list} has {found} entries, and {expected} are due"
            ),
            Self::FaceOrder { cell } => write!(
                f,
                "the order given for cell {cell} does not name each of its faces once"
            ),
            Self::MissingFace { face, faces } => {
                write!(f, "there is no face {face}: there are {faces} faces, from 0")
            }
        }
    }
}

impl Error for BuildError {}
