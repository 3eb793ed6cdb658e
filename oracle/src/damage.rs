//! Damaged copies of good input: lengths, counts, numbers, indices, chains, codes and links, cells with many
//! faces, distances, what the gradients of Gauss read, and what the prediction of linked faces does.

mod crowd;
mod distance;
mod gradient;
mod linked;

pub use crowd::of_crowd;
pub use distance::{of_distances, Spread};
pub use gradient::of_gradients;
pub use linked::of_linked;

use crate::checks::{self, LIMIT};
use crate::entry::{Entry, Part, Unit};
use crate::lent::{Lent, Slice, SliceMut, Slices, FACE_WIDTH, OWN};
use crate::makers;
use crate::random::Random;

#[derive(Clone, Copy, Debug, PartialEq, Eq)]
pub enum Count {
    Dimension,
    Cells,
    Faces,
    FaceRecords,
    NeighbourRecords,
    Records,
}

/// One change to what is lent.
#[derive(Clone, Copy, Debug)]
pub enum Damage {
    Count(Count, usize),
    /// The length of a lent slice.
    Input(Part, usize),
    /// The length of a slice that is handed out.
    Output(Part, usize),
    /// The mesh number beside a part.
    Number(Part, u64),
    /// One number of a slice of whole numbers.
    Whole(Part, usize, usize),
    /// One number of a slice of floats.
    Float(Part, usize, f64),
    /// The lowest bit of a number of the geometry.
    Flipped(usize),
    /// Every centre of a face or of a cell, from this seed.
    Centres(Spread, u64),
    /// The fields of a step ordinary numbers, from this seed, and a condition for each face that needs one.
    Calm(u64),
    /// The distances of every face made anew.
    Refilled,
    /// The records of a table of chains in another order, the chains the same.
    Shuffled(Part, u64),
    /// One more record in a table of chains, which no chain reaches.
    Spare(Part),
    /// More faces of these cells, in all else like another but without a link.
    Faces {
        count: usize,
        owner: usize,
        neighbour: usize,
        like: usize,
    },
    /// More records at the head of a cell's chain of faces, which name the faces from `face` on in turn.
    Longer {
        count: usize,
        cell: usize,
        face: usize,
    },
}

impl Damage {
    fn apply(self, lent: &mut Lent, outputs: &mut Slices) {
        match self {
            Damage::Count(count, value) => *count_mut(lent, count) = value,
            Damage::Input(part, length) => lent.slices.slice_mut(part).resize(length, 1, 1.0),
            Damage::Output(part, length) => outputs.slice_mut(part).resize(length, 1, 1.0),
            Damage::Number(part, number) => lent.set_number(part, number),
            Damage::Whole(part, at, value) => {
                if let SliceMut::Whole(numbers) = lent.slices.slice_mut(part) {
                    if let Some(number) = numbers.get_mut(at) {
                        *number = value;
                    }
                }
            }
            Damage::Float(part, at, value) => {
                if let SliceMut::Float(numbers) = lent.slices.slice_mut(part) {
                    if let Some(number) = numbers.get_mut(at) {
                        *number = value;
                    }
                }
            }
            Damage::Flipped(at) => {
                if let Some(number) = lent.slices.geometry.get_mut(at) {
                    *number = f64::from_bits(number.to_bits() ^ 1);
                }
            }
            Damage::Centres(spread, seed) => distance::spread(lent, spread, seed),
            Damage::Calm(seed) => linked::calm(lent, seed),
            Damage::Refilled => refill(lent),
            Damage::Shuffled(part, seed) => shuffle(lent, part, seed),
            Damage::Spare(part) => add_record(lent, part),
            Damage::Faces {
                count,
                owner,
                neighbour,
                like,
            } => {
                for _ in 0..count {
                    add_face(lent, outputs, [owner, neighbour], like);
                }
            }
            Damage::Longer { count, cell, face } => {
                for place in 0..count {
                    lengthen(lent, cell, (face + place) % lent.counts.faces);
                }
            }
        }
    }
}

impl Damage {
    /// Whether it may change what the distances of a face are, and not these.
    pub fn moves(self) -> bool {
        match self {
            Damage::Whole(Part::Adjacency, ..) => true,
            Damage::Whole(Part::Codes, at, _) => at % 2 == 1,
            Damage::Float(Part::Geometry, at, _) => at % FACE_WIDTH < 3,
            Damage::Float(Part::Places, at, _) => at % 4 < 3,
            Damage::Centres(..) | Damage::Faces { .. } => true,
            _ => false,
        }
    }
}

/// What is lent with the changes so far.
struct Changed {
    lent: Lent,
    damages: Vec<Damage>,
}

impl Changed {
    fn of(lent: &Lent) -> Self {
        Self {
            lent: lent.clone(),
            damages: Vec::new(),
        }
    }

    fn make(&mut self, damage: Damage) {
        damage.apply(&mut self.lent, &mut Slices::default());
        self.damages.push(damage);
    }
}

/// Makes the distances of every face anew, by what is lent; one that is of a cell or of a face that is not there stays
/// as it is.
fn refill(lent: &mut Lent) {
    for face in 0..lent.slices.geometry.len() / FACE_WIDTH {
        let record = FACE_WIDTH * face;
        for (side, given) in checks::distances(lent, face).into_iter().enumerate() {
            if let Some(given) = given {
                lent.slices.geometry[record + OWN + side] = given;
            }
        }
    }
}

/// Makes the changes. A slice that is read and written over is an output as it is then lent.
pub fn apply(entry: Entry, damages: &[Damage], lent: &mut Lent, outputs: &mut Slices) {
    for damage in damages {
        damage.apply(lent, outputs);
    }
    for &part in entry.outputs().iter().filter(|&&part| entry.lends(part)) {
        outputs.take(part, &lent.slices);
    }
}

/// The changes and, where they may have changed what the distances are, these made anew.
pub fn refilled(mut damages: Vec<Damage>) -> Vec<Damage> {
    if damages.iter().any(|damage| damage.moves()) {
        damages.push(Damage::Refilled);
    }
    damages
}

/// Gives the records of a table other numbers, and names them by these in heads and records.
fn shuffle(lent: &mut Lent, part: Part, seed: u64) {
    let mut random = Random::new(seed);
    let slices = &mut lent.slices;
    let (records, heads, step, offset) = match part {
        Part::Facing => (&mut slices.facing, &mut slices.heads, 2, 0),
        Part::Bordering => (&mut slices.bordering, &mut slices.heads, 2, 1),
        _ => (&mut slices.equations, &mut slices.starts, 1, 0),
    };
    let count = records.len() / 2;
    let mut places: Vec<usize> = (0..count).collect();
    for last in (1..count).rev() {
        places.swap(last, random.below(last + 1));
    }
    let moved = |record: usize| match record.checked_sub(1) {
        Some(place) if place < count => places[place] + 1,
        _ => record,
    };
    for head in heads.iter_mut().skip(offset).step_by(step) {
        *head = moved(*head);
    }
    let old = records.clone();
    let weights = slices.weights.clone();
    for (place, &to) in places.iter().enumerate() {
        records[2 * to] = old[2 * place];
        records[2 * to + 1] = moved(old[2 * place + 1]);
        if part == Part::Equations && slices.weights.len() == 4 * count {
            let (to, from) = (4 * to, 4 * place);
            slices.weights[to..to + 4].copy_from_slice(&weights[from..from + 4]);
        }
    }
}

fn add_record(lent: &mut Lent, part: Part) {
    let slices = &mut lent.slices;
    match part {
        Part::Facing => {
            lent.counts.face_records += 1;
            slices.facing.extend([usize::MAX, usize::MAX]);
        }
        Part::Bordering => {
            lent.counts.neighbour_records += 1;
            slices.bordering.extend([usize::MAX, usize::MAX]);
        }
        _ => {
            lent.records += 1;
            slices.equations.extend([usize::MAX, usize::MAX]);
            slices.weights.extend([f64::NAN; 4]);
        }
    }
}

/// Adds a face to every slice that has a record for each.
fn add_face(lent: &mut Lent, outputs: &mut Slices, cells: [usize; 2], like: usize) {
    let face = lent.counts.faces;
    for part in Part::ALL {
        let (unit, width) = part.shape();
        if unit == Unit::Face {
            for slices in [&mut lent.slices, &mut *outputs] {
                copy_record(slices.slice_mut(part), width * like, width);
            }
        }
    }
    lent.slices.adjacency[2 * face..].copy_from_slice(&cells);
    lent.slices.codes[2 * face + 1] = 0;
    lent.counts.faces += 1;
}

/// Puts a copy of a record at the end of a slice, where that is in use.
fn copy_record(slice: SliceMut<'_>, at: usize, width: usize) {
    match slice {
        SliceMut::Whole(numbers) if !numbers.is_empty() => {
            numbers.extend_from_within(at..at + width)
        }
        SliceMut::Float(numbers) if !numbers.is_empty() => {
            numbers.extend_from_within(at..at + width)
        }
        _ => {}
    }
}

fn lengthen(lent: &mut Lent, cell: usize, face: usize) {
    let slices = &mut lent.slices;
    slices.facing.extend([face, slices.heads[2 * cell]]);
    slices.heads[2 * cell] = slices.facing.len() / 2;
    lent.counts.face_records += 1;
}

fn count_mut(lent: &mut Lent, count: Count) -> &mut usize {
    match count {
        Count::Dimension => &mut lent.counts.dimension,
        Count::Cells => &mut lent.counts.cells,
        Count::Faces => &mut lent.counts.faces,
        Count::FaceRecords => &mut lent.counts.face_records,
        Count::NeighbourRecords => &mut lent.counts.neighbour_records,
        Count::Records => &mut lent.records,
    }
}

/// Every single damage to the shape of what an entry is lent: counts, lengths, mesh numbers.
pub fn of_shape(entry: Entry, lent: &Lent) -> Vec<Damage> {
    let mut damages = Vec::new();
    for value in [0, 1, 2, 3, 4, usize::MAX] {
        damages.push(Damage::Count(Count::Dimension, value));
    }
    let counts = &lent.counts;
    for (count, found) in [
        (Count::Cells, counts.cells),
        (Count::Faces, counts.faces),
        (Count::FaceRecords, counts.face_records),
        (Count::NeighbourRecords, counts.neighbour_records),
        (Count::Records, lent.records),
    ] {
        let near = [found.wrapping_sub(1), found + 1];
        for value in near.into_iter().chain([0, LIMIT, LIMIT + 1, usize::MAX]) {
            damages.push(Damage::Count(count, value));
        }
    }
    for &part in entry.inputs() {
        for length in lengths(lent.slices.slice(part).len()) {
            damages.push(Damage::Input(part, length));
        }
        if part.is_numbered() {
            for number in [counts.mesh ^ 1, !counts.mesh, counts.mesh.wrapping_add(1)] {
                damages.push(Damage::Number(part, number));
            }
        }
    }
    for &part in entry.outputs().iter().filter(|&&part| !entry.lends(part)) {
        for length in lengths(lent.due(part).unwrap_or(0)) {
            damages.push(Damage::Output(part, length));
        }
    }
    damages
}

fn lengths(found: usize) -> Vec<usize> {
    let mut lengths = vec![found + 1, 0];
    if found > 1 {
        lengths.push(found - 1);
    }
    lengths
}

/// One damage to a number of the lent mesh or stencil: owners, neighbours, records, codes, links. Some of
/// them are harmless.
pub fn of_mesh(random: &mut Random, entry: Entry, lent: &Lent) -> Option<Damage> {
    let whole: Vec<Part> = entry
        .inputs()
        .iter()
        .copied()
        .filter(|&part| matches!(lent.slices.slice(part), Slice::Whole(w) if !w.is_empty()))
        .collect();
    if whole.is_empty() {
        return None;
    }
    let part = random.pick(&whole);
    let at = random.below(lent.slices.slice(part).len());
    let values = tried(lent, part, at);
    let value = match random.below(values.len() + 2) {
        place if place < values.len() => values[place],
        place if place == values.len() => random.below(bound(lent, part, at) + 1),
        _ => random.next() as usize,
    };
    Some(Damage::Whole(part, at, value))
}

/// Several links at faces at random: of two faces with each other, whatever their cells, or of one face
/// to anything worth trying. Most are bad.
pub fn of_links(random: &mut Random, entry: Entry, lent: &Lent) -> Option<Vec<Damage>> {
    let faces = lent.counts.faces;
    if !entry.lends(Part::Codes) || faces == 0 {
        return None;
    }
    let mut damages = Vec::new();
    for _ in 0..random.between(2, 4) {
        let face = random.below(faces);
        if random.chance(1, 2) {
            let peer = random.below(faces);
            damages.push(Damage::Whole(Part::Codes, 2 * face + 1, peer + 1));
            damages.push(Damage::Whole(Part::Codes, 2 * peer + 1, face + 1));
        } else {
            let values = tried(lent, Part::Codes, 2 * face + 1);
            let value = random.pick(&values);
            damages.push(Damage::Whole(Part::Codes, 2 * face + 1, value));
        }
    }
    Some(damages)
}

/// A change of a table of chains that leaves its chains as they are.
pub fn of_layout(random: &mut Random, entry: Entry) -> Option<Damage> {
    let tables = [Part::Facing, Part::Bordering, Part::Equations];
    let part = random.pick(&tables);
    if !entry.lends(part) {
        None
    } else if random.chance(1, 3) {
        Some(Damage::Spare(part))
    } else {
        Some(Damage::Shuffled(part, random.next()))
    }
}

/// Volumes that no mesh of the Rust has.
const VOLUMES: [f64; 6] = [0.0, -0.0, -1.0, 5e-324, f64::INFINITY, f64::NAN];

/// A change of one float of the mesh or the stencil, and of no distance.
pub fn of_floats(random: &mut Random, entry: Entry, lent: &Lent) -> Option<Damage> {
    let part = random.pick(&[
        Part::Geometry,
        Part::Places,
        Part::Values,
        Part::Weights,
        Part::Inverses,
    ]);
    let length = match part {
        Part::Geometry => OWN * (lent.slices.geometry.len() / FACE_WIDTH),
        _ => lent.slices.slice(part).len(),
    };
    if !entry.lends(part) || length == 0 {
        None
    } else if part == Part::Places && random.chance(1, 2) {
        let volume = 4 * random.below(lent.counts.cells) + 3;
        Some(Damage::Float(part, volume, random.pick(&VOLUMES)))
    } else {
        let value = makers::float(random, makers::Style::Wild);
        let at = match (part, random.below(length)) {
            (Part::Geometry, place) => place / OWN * FACE_WIDTH + place % OWN,
            (_, place) => place,
        };
        Some(Damage::Float(part, at, value))
    }
}

/// Every value worth trying at one place of a slice of whole numbers.
pub fn tried(lent: &Lent, part: Part, at: usize) -> Vec<usize> {
    let bound = bound(lent, part, at);
    let mut values = vec![0, 1, bound.saturating_sub(1), bound, bound + 1, usize::MAX];
    let record = at / 2;
    match (part, at % 2) {
        // the owner's neighbour is the owner
        (Part::Adjacency, 1) => values.push(lent.slices.adjacency[at - 1].wrapping_add(1)),
        (Part::Adjacency, _) => values.push(lent.slices.adjacency[at + 1].wrapping_sub(1)),
        // a record is its own next, or a face its own peer
        (Part::Facing | Part::Bordering | Part::Equations | Part::Codes, 1) => {
            values.push(record + 1);
        }
        (Part::Codes, _) => values.extend([2, 3]),
        _ => {}
    }
    values
}

/// The first number that is too large at a place.
fn bound(lent: &Lent, part: Part, at: usize) -> usize {
    let counts = &lent.counts;
    let second = at % 2 == 1;
    let bound = match (part, second) {
        (Part::Adjacency, false) => counts.cells,
        (Part::Adjacency, true) => counts.cells + 1,
        (Part::Heads, false) => counts.face_records + 1,
        (Part::Heads, true) => counts.neighbour_records + 1,
        (Part::Facing, false) => counts.faces,
        (Part::Facing, true) => counts.face_records + 1,
        (Part::Bordering, false) => counts.cells,
        (Part::Bordering, true) => counts.neighbour_records + 1,
        (Part::Codes, false) => 3,
        (Part::Codes, true) => counts.faces + 1,
        (Part::Starts, _) => lent.records + 1,
        (Part::Equations, false) => counts.cells + 2,
        (Part::Equations, true) => lent.records + 1,
        _ => unreachable!("{part:?} holds floats"),
    };
    bound.min(usize::MAX - 1)
}
