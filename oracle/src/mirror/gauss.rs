//! The gradients of Gauss written a second time, on the lent slices alone and by parts that can be written otherwise.

use super::faithful;
use crate::checks;
use crate::entry::{Entry, Part};
use crate::lent::{Lent, Slices, FACE_WIDTH};
use crate::port::{Answer, Call};

/// What stands on the other side of a face.
pub enum Side {
    /// A cell, and how far its centre is from the face's.
    Cell(usize, f64),
    Fixed(f64),
    Nothing,
}

/// The parts of a gradient.
pub struct Writing {
    /// Whether 12 refuses a volume.
    pub is_bad: fn(f64) -> bool,
    pub side: fn(Entry, &Lent, usize) -> Side,
    /// The value of a face between two pressures, at these distances.
    pub between: fn([f64; 2], [f64; 2]) -> f64,
    /// The value of a face with nothing on its other side. The +0.0 that is added shows in no gradient: sums start at
    /// +0.0, which no zero changes.
    pub alone: fn(&Lent, usize, f64) -> f64,
    /// The sums of all cells, of the values of the faces.
    pub sums: fn(&Lent, &[f64]) -> Vec<[f64; 3]>,
    /// What is made of a sum and its cell's volume.
    pub quotient: fn(f64, f64) -> f64,
}

pub const RIGHT: Writing = Writing {
    is_bad: |volume| volume <= 0.0,
    side: |entry, lent, face| sides(entry, lent, face, None, to_image),
    between: |[own, other], [a, b]| (b * own + a * other) / (a + b),
    alone: |_, _, own| own + 0.0,
    sums: |lent, values| all(lent, values, &PLAIN),
    quotient: |sum, volume| sum / volume,
};

/// The call so written, where no check before arithmetic refuses.
pub fn written(
    entry: Entry,
    writing: &Writing,
    lent: &Lent,
    before: &Slices,
    outputs: &mut Slices,
) -> Option<Answer> {
    if checks::check(entry, lent, before).is_some() {
        return None;
    }
    if let Some(cell) = volumes(lent).position(writing.is_bad) {
        outputs.gradient.fill(0.0);
        return Some(Answer::Refused(12, cell));
    }
    let values = match entry.lends(Part::Pressure) {
        true => face_values(entry, writing, lent),
        false => lent.slices.face_values.clone(),
    };
    let sums = (writing.sums)(lent, &values).into_iter();
    outputs.gradient = sums
        .zip(volumes(lent))
        .flat_map(|(sum, volume)| sum.map(|sum| (writing.quotient)(sum, volume)))
        .collect();
    Some(Answer::Accepted)
}

/// The second writing, behind the port's checks.
pub fn rewritten(entry: Entry) -> Call {
    let checked = faithful(entry);
    Box::new(move |lent, outputs| {
        let before = outputs.clone();
        let answer = written(entry, &RIGHT, lent, &before, outputs);
        answer.unwrap_or_else(|| checked(lent, outputs))
    })
}

pub fn volumes(lent: &Lent) -> impl Iterator<Item = f64> + '_ {
    let records = lent.slices.places.chunks_exact(4);
    records.map(|record| record[3])
}

fn face_values(entry: Entry, writing: &Writing, lent: &Lent) -> Vec<f64> {
    let pressure = &lent.slices.pressure;
    let faces = 0..lent.counts.faces;
    let value = |face: usize| {
        let owner = owner(lent, face);
        let own = pressure[owner];
        match (writing.side)(entry, lent, face) {
            Side::Cell(other, b) => {
                let a = distance(lent, face, owner);
                (writing.between)([own, pressure[other]], [a, b])
            }
            Side::Fixed(value) => value,
            Side::Nothing => (writing.alone)(lent, face, own),
        }
    };
    faces.map(value).collect()
}

pub fn owner(lent: &Lent, face: usize) -> usize {
    lent.slices.adjacency[2 * face]
}

pub fn neighbour(lent: &Lent, face: usize) -> Option<usize> {
    lent.slices.adjacency[2 * face + 1].checked_sub(1)
}

pub fn inner(lent: &Lent, face: usize) -> Option<Side> {
    let neighbour = neighbour(lent, face)?;
    Some(Side::Cell(neighbour, distance(lent, face, neighbour)))
}

/// The other side of a linked face, where links are lent.
fn linked(
    entry: Entry,
    lent: &Lent,
    face: usize,
    distance: fn(&Lent, usize, usize) -> f64,
) -> Option<Side> {
    match entry.lends(Part::Codes) {
        true => beyond_link(lent, face, distance),
        false => None,
    }
}

pub fn beyond_link(
    lent: &Lent,
    face: usize,
    distance: fn(&Lent, usize, usize) -> f64,
) -> Option<Side> {
    let peer = lent.slices.codes[2 * face + 1].checked_sub(1)?;
    Some(Side::Cell(owner(lent, peer), distance(lent, face, peer)))
}

pub fn fixed(entry: Entry, lent: &Lent, face: usize) -> Option<Side> {
    let is_fixed = entry.lends(Part::Codes) && lent.slices.codes[2 * face] == 1;
    is_fixed.then(|| Side::Fixed(lent.slices.values[4 * face]))
}

/// What `first` finds, else a neighbour, else a link, at this distance, else a fixed value.
pub fn sides(
    entry: Entry,
    lent: &Lent,
    face: usize,
    first: Option<Side>,
    distance: fn(&Lent, usize, usize) -> f64,
) -> Side {
    first
        .or_else(|| inner(lent, face))
        .or_else(|| linked(entry, lent, face, distance))
        .or_else(|| fixed(entry, lent, face))
        .unwrap_or(Side::Nothing)
}

/// How far the centre of a face is from that of a cell.
pub fn distance(lent: &Lent, face: usize, cell: usize) -> f64 {
    to_cell_moved(lent, face, cell, [0.0; 3])
}

/// How far it is from that centre with this taken from it.
fn to_cell_moved(lent: &Lent, face: usize, cell: usize, by: [f64; 3]) -> f64 {
    let slices = &lent.slices;
    let [x, y, z] = [0, 1, 2].map(|axis| {
        let center = slices.places[4 * cell + axis] - by[axis];
        slices.geometry[FACE_WIDTH * face + axis] - center
    });
    (x * x + y * y + z * z).sqrt()
}

/// How far a linked face is from its peer's owner with this share of the translation taken from its centre.
pub fn image_by(lent: &Lent, face: usize, peer: usize, share: f64) -> f64 {
    let translation = [1, 2, 3].map(|axis| share * lent.slices.values[4 * face + axis]);
    to_cell_moved(lent, face, owner(lent, peer), translation)
}

pub fn to_image(lent: &Lent, face: usize, peer: usize) -> f64 {
    image_by(lent, face, peer, 1.0)
}

fn area(lent: &Lent, face: usize) -> [f64; 3] {
    let first = FACE_WIDTH * face + 3;
    [0, 1, 2].map(|axis| lent.slices.geometry[first + axis])
}

/// How faces are added up.
pub struct Scatter {
    pub start: f64,
    /// The sign of what a neighbour is given.
    pub neighbour: f64,
    /// A sum with a product of area and value added.
    pub add: fn(f64, f64, f64) -> f64,
}

pub const PLAIN: Scatter = Scatter {
    start: 0.0,
    neighbour: -1.0,
    add: plus,
};

fn plus(sum: f64, area: f64, value: f64) -> f64 {
    sum + area * value
}

/// Adds each of these faces to its owner's sum and, with the other sign, to its neighbour's.
pub fn scattered(
    lent: &Lent,
    values: &[f64],
    faces: impl Iterator<Item = usize>,
    how: &Scatter,
) -> Vec<[f64; 3]> {
    let mut sums = vec![[how.start; 3]; lent.counts.cells];
    for face in faces {
        let own = (Some(owner(lent, face)), 1.0);
        for (cell, sign) in [own, (neighbour(lent, face), how.neighbour)] {
            let Some(cell) = cell else { continue };
            for (sum, area) in sums[cell].iter_mut().zip(area(lent, face)) {
                *sum = (how.add)(*sum, sign * area, values[face]);
            }
        }
    }
    sums
}

/// Every face in its order.
pub fn all(lent: &Lent, values: &[f64], how: &Scatter) -> Vec<[f64; 3]> {
    scattered(lent, values, 0..lent.counts.faces, how)
}

/// The sums of the Rust's parallel path: each cell's along its chain of faces.
pub fn gathered(lent: &Lent, values: &[f64]) -> Vec<[f64; 3]> {
    let of_cell = |cell: usize| {
        let mut sum = [0.0; 3];
        for face in Lent::chain(&lent.slices.facing, lent.slices.heads[2 * cell]) {
            let sign = if owner(lent, face) == cell { 1.0 } else { -1.0 };
            for (sum, area) in sum.iter_mut().zip(area(lent, face)) {
                *sum = plus(*sum, sign * area, values[face]);
            }
        }
        sum
    };
    (0..lent.counts.cells).map(of_cell).collect()
}
