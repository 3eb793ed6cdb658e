//! A model, written from documents 01 and 02, of the refusals that the port adds before arithmetic: 1 to 6,
//! 14, which comes after 5 and before 6, and 20, which comes last.
//!
//! An entry makes only the checks of what it is lent. The counts are lent as one record, so 1 looks at
//! all of them; at the number of equation records where a stencil is lent or handed out. Outputs are
//! lent too, so 2 looks at their lengths. These refusals leave the outputs untouched.

use crate::calls::{Place, Refusal};
use crate::entry::{Entry, Part};
use crate::lent::{Lent, Slices, FACE_WIDTH, OTHER, OWN};

/// Most cells, faces or chain entries.
pub const LIMIT: usize = 65_535;

/// Most faces that name one cell, and most records in its chain of faces.
pub const MOST: usize = 26;

/// The first refusal before arithmetic, if any.
pub fn check(entry: Entry, lent: &Lent, outputs: &Slices) -> Option<Refusal> {
    before_distances(entry, lent, outputs).or_else(|| {
        let wrong = wrong_distances(entry, lent);
        wrong.first().map(|&face| of_mesh(20, face))
    })
}

/// The first refusal before 20, if any.
pub fn before_distances(entry: Entry, lent: &Lent, outputs: &Slices) -> Option<Refusal> {
    shape(entry, lent, outputs).or_else(|| mesh(entry, lent))
}

fn of_mesh(number: u64, index: usize) -> Refusal {
    Refusal {
        place: Place::Mesh,
        number,
        index,
    }
}

fn shape(entry: Entry, lent: &Lent, outputs: &Slices) -> Option<Refusal> {
    let refusal = |number| {
        Some(Refusal {
            place: Place::Shape,
            number,
            index: 0,
        })
    };
    if has_bad_size(entry, lent) {
        return refusal(1);
    }
    let reads = entry.inputs().iter().map(|&part| (part, &lent.slices));
    let writes = entry.outputs().iter().map(|&part| (part, outputs));
    if reads
        .chain(writes)
        .any(|(part, slices)| lent.due(part) != Some(slices.slice(part).len()))
    {
        return refusal(2);
    }
    let mut numbered = entry.inputs().iter().filter(|part| part.is_numbered());
    if numbered.any(|&part| lent.number(part) != lent.counts.mesh) {
        return refusal(3);
    }
    None
}

fn has_bad_size(entry: Entry, lent: &Lent) -> bool {
    let counts = &lent.counts;
    counts.cells == 0
        || counts.cells > LIMIT
        || counts.faces > LIMIT
        || counts.face_records > LIMIT
        || counts.neighbour_records > LIMIT
        || (entry.has_stencil() && lent.records > LIMIT)
        || !(counts.dimension == 2 || counts.dimension == 3)
}

fn mesh(entry: Entry, lent: &Lent) -> Option<Refusal> {
    let refusal = |number, index| Some(of_mesh(number, index));
    let mut faces = 0..lent.counts.faces;
    if let Some(face) = faces.find(|&face| is_bad_face(entry, lent, face)) {
        return refusal(4, face);
    }
    let mut cells = 0..lent.counts.cells;
    if let Some(cell) = cells.find(|&cell| has_broken_chain(entry, lent, cell)) {
        return refusal(5, cell);
    }
    let crowded = crowded(entry, lent);
    if let Some(&cell) = crowded.iter().flatten().min() {
        return refusal(14, cell);
    }
    if entry.lends(Part::Codes) {
        if let Some(&face) = bad_links(lent).first() {
            return refusal(6, face);
        }
    }
    None
}

fn is_bad_face(entry: Entry, lent: &Lent, face: usize) -> bool {
    let cells = lent.counts.cells;
    if entry.lends(Part::Adjacency) {
        let owner = lent.slices.adjacency[2 * face];
        let neighbour = lent.slices.adjacency[2 * face + 1];
        if owner >= cells || neighbour > cells || neighbour == owner + 1 {
            return true;
        }
    }
    entry.lends(Part::Codes) && lent.slices.codes[2 * face] > 2
}

fn has_broken_chain(entry: Entry, lent: &Lent, cell: usize) -> bool {
    let slices = &lent.slices;
    let cells = lent.counts.cells;
    let faces = lent.counts.faces;
    if entry.lends(Part::Facing)
        && is_broken(&slices.facing, slices.heads[2 * cell], |face| face < faces)
    {
        return true;
    }
    if entry.lends(Part::Bordering)
        && is_broken(&slices.bordering, slices.heads[2 * cell + 1], |other| {
            other < cells
        })
    {
        return true;
    }
    entry.lends(Part::Starts)
        && is_broken(&slices.equations, slices.starts[cell], |source| {
            source < 2 || source - 2 < cells
        })
}

/// Whether a chain names a missing entry, or something that is not there, or has no end within the
/// number of entries.
fn is_broken(records: &[usize], first: usize, is_there: impl Fn(usize) -> bool) -> bool {
    let entries = records.len() / 2;
    let mut at = first;
    for _ in 0..=entries {
        if at == 0 {
            return false;
        }
        if at > entries || !is_there(records[2 * at - 2]) {
            return true;
        }
        at = records[2 * at - 1];
    }
    true
}

/// Every cell that too many faces name, and every cell with too many records in its chain of faces; the lowest
/// first. What is lent has passed the checks of shape, 4 and 5.
pub fn crowded(entry: Entry, lent: &Lent) -> [Vec<usize>; 2] {
    let over = |found: Vec<usize>| -> Vec<usize> {
        let cells = 0..found.len();
        cells.filter(|&cell| found[cell] > MOST).collect()
    };
    [
        match entry.lends(Part::Adjacency) {
            true => over(namings(lent)),
            false => Vec::new(),
        },
        match entry.lends(Part::Facing) {
            true => over(face_records(lent)),
            false => Vec::new(),
        },
    ]
}

/// Whether there is such a cell, so that the port refuses what the Rust may accept.
pub fn is_crowded(entry: Entry, lent: &Lent) -> bool {
    crowded(entry, lent).iter().any(|cells| !cells.is_empty())
}

/// How many faces name each cell, as owner or as neighbour.
pub fn namings(lent: &Lent) -> Vec<usize> {
    let mut found = vec![0; lent.counts.cells];
    for face in lent.slices.adjacency.chunks_exact(2) {
        found[face[0]] += 1;
        if let Some(neighbour) = face[1].checked_sub(1) {
            found[neighbour] += 1;
        }
    }
    found
}

/// How many records each cell's chain of faces has; a face counts as often as it stands there.
pub fn face_records(lent: &Lent) -> Vec<usize> {
    let slices = &lent.slices;
    let heads = slices.heads.chunks_exact(2);
    heads
        .map(|heads| Lent::chain(&slices.facing, heads[0]).len())
        .collect()
}

/// Every face whose link stands on a two-cell face, or names itself, a missing face, or one that is not
/// linked back; the lowest first. What is lent has passed the checks of shape.
pub fn bad_links(lent: &Lent) -> Vec<usize> {
    let faces = lent.counts.faces;
    let peer = |face: usize| lent.slices.codes[2 * face + 1];
    let is_bad = |&face: &usize| {
        let linked = peer(face);
        linked != 0
            && (lent.slices.adjacency[2 * face + 1] != 0
                || linked == face + 1
                || linked > faces
                || peer(linked - 1) != face + 1)
    };
    (0..faces).filter(is_bad).collect()
}

/// Every face with a stored distance that is not the one that the geometry gives; the lowest first. What is lent
/// has passed the checks of shape.
pub fn wrong_distances(entry: Entry, lent: &Lent) -> Vec<usize> {
    if !entry.checks_distances() {
        return Vec::new();
    }
    let mut faces = Vec::new();
    for face in 0..lent.counts.faces {
        if wrong_sides(entry, lent, face).contains(&true) {
            faces.push(face);
        }
    }
    faces
}

/// Whether a face's distance to its owner is wrong, and whether the one on its other side is.
pub fn wrong_sides(entry: Entry, lent: &Lent, face: usize) -> [bool; 2] {
    let stored = stored_distances(lent, face);
    let given = distances(lent, face);
    let is_seen = [true, sees_other_side(entry, lent, face)];
    [0, 1].map(|side| is_seen[side] && given[side].is_some_and(|given| !agree(stored[side], given)))
}

pub fn stored_distances(lent: &Lent, face: usize) -> [f64; 2] {
    [OWN, OTHER].map(|place| lent.slices.geometry[FACE_WIDTH * face + place])
}

/// Whether the distance on a face's other side is looked at: at a face with one cell it may be that of a link, so
/// that links have to be lent.
pub fn sees_other_side(entry: Entry, lent: &Lent, face: usize) -> bool {
    entry.lends(Part::Codes) || lent.slices.adjacency[2 * face + 1] != 0
}

/// The distances that the geometry gives a face: from its centre to its owner's; and to its neighbour's, or where it
/// is linked from its peer's centre to that of the peer's owner, or +0.0. `None` where something of it is not there.
pub fn distances(lent: &Lent, face: usize) -> [Option<f64>; 2] {
    let adjacency = |at: usize| lent.slices.adjacency.get(at).copied();
    let to_owner = |face: usize| lent.distance(face, adjacency(2 * face)?);
    let codes = &lent.slices.codes;
    let other = || match (adjacency(2 * face + 1)?, *codes.get(2 * face + 1)?) {
        (0, 0) => Some(0.0),
        (0, peer) if peer <= codes.len() / 2 => to_owner(peer - 1),
        (0, _) => None,
        (neighbour, _) => lent.distance(face, neighbour - 1),
    };
    [to_owner(face), other()]
}

/// The same bits, or two NaNs.
pub fn agree(stored: f64, given: f64) -> bool {
    stored.to_bits() == given.to_bits() || (stored.is_nan() && given.is_nan())
}
