//! Whether the faces of each cell close it. Volumes and centres that are worked out from points mean nothing
//! where they do not.

use engine::{Mesh, Vec3};
use std::fmt;

/// How far the area vectors of a cell may be from adding up to zero, as a share of their sizes.
const TOLERANCE: f64 = 1e-6;

/// A cell that is not closed.
#[derive(Clone, Copy, Debug, PartialEq, Eq)]
pub struct Unclosed {
    pub cell: usize,
    /// The face that would close it if it looked the other way; of several, the one that looks into it most.
    pub turned: Option<usize>,
}

impl fmt::Display for Unclosed {
    fn fmt(&self, f: &mut fmt::Formatter<'_>) -> fmt::Result {
        let cell = self.cell;
        match self.turned {
            Some(face) => write!(f, "the points of face {face} turn the wrong way: turned round, it would close cell {cell}"),
            None => write!(f, "the faces of cell {cell} do not close it: one is missing, or their points turn the wrong way"),
        }
    }
}

/// The area vectors of a cell's faces, out of it, and their sizes, added up.
#[derive(Clone, Copy)]
struct Sum {
    area: Vec3,
    size: f64,
}

impl Sum {
    fn add(&mut self, area: Vec3, sign: f64) {
        self.area = [0, 1, 2].map(|axis| self.area[axis] + sign * area[axis]);
        self.size += largest(area);
    }

    fn is_closed(&self) -> bool {
        largest(self.area) <= TOLERANCE * self.size
    }
}

fn largest(area: Vec3) -> f64 {
    area.iter().fold(0.0, |size: f64, x| size.max(x.abs()))
}

/// The lowest cell that is not closed.
pub fn unclosed(mesh: &Mesh) -> Option<Unclosed> {
    let none = Sum {
        area: [0.0; 3],
        size: 0.0,
    };
    let mut sums = vec![none; mesh.cell_count()];
    for side in sides(mesh) {
        sums[side.cell].add(side.area, side.sign);
    }
    let cell = sums.iter().position(|sum| !sum.is_closed())?;
    Some(Unclosed {
        cell,
        turned: turned(mesh, cell, sums[cell]),
    })
}

/// The face of a cell that is turned, where one is.
fn turned(mesh: &Mesh, cell: usize, sum: Sum) -> Option<usize> {
    let own: Vec<Side> = sides(mesh).filter(|side| side.cell == cell).collect();
    let middle = [0, 1, 2].map(|axis| {
        let total: f64 = own.iter().map(|side| side.center[axis]).sum();
        total / own.len() as f64
    });
    let outward = |side: &Side| -> f64 {
        let arm = [0, 1, 2].map(|axis| side.area[axis] * (side.center[axis] - middle[axis]));
        side.sign * (arm[0] + arm[1] + arm[2])
    };
    let closes = |side: &&Side| {
        let mut sum = sum;
        sum.add(side.area, -2.0 * side.sign);
        sum.is_closed()
    };
    let closing = own.iter().filter(closes);
    let found = closing.min_by(|a, b| outward(a).total_cmp(&outward(b)));
    found.map(|side| side.face)
}

/// A face as one of its cells has it.
struct Side {
    face: usize,
    cell: usize,
    center: Vec3,
    area: Vec3,
    /// 1 where the area vector looks out of the cell, or else -1.
    sign: f64,
}

/// Each face of each cell, in face order.
fn sides(mesh: &Mesh) -> impl Iterator<Item = Side> + '_ {
    let faces = (0..mesh.face_count()).filter_map(|at| Some((at, mesh.face(at)?)));
    faces.flat_map(|(at, face)| {
        let side = move |cell: usize, sign: f64| Side {
            face: at,
            cell,
            center: face.center,
            area: face.area_vector,
            sign,
        };
        let neighbour = face.neighbour.map(|cell| side(cell, -1.0));
        Some(side(face.owner, 1.0)).into_iter().chain(neighbour)
    })
}
