//! Copies in which a cell has about as many naming faces, or records in its chain of faces, as 14 allows.

use super::{of_floats, of_layout, of_links, of_shape, Changed, Count, Damage};
use crate::checks::{face_records, namings, LIMIT, MOST};
use crate::entry::{Entry, Part};
use crate::lent::Lent;
use crate::random::Random;

/// What a cell is brought to: about as many as 14 allows, and 256 more, which a byte does not tell from them.
const TOTALS: [usize; 8] = [
    MOST - 1,
    MOST,
    MOST,
    MOST,
    MOST + 1,
    MOST + 1,
    MOST + 1,
    MOST + 256,
];

/// More faces that name a cell, more records in a cell's chain, or both, at one cell or two at random; and often
/// what another check or arithmetic refuses. What is lent is good.
pub fn of_crowd(random: &mut Random, entry: Entry, lent: &Lent) -> Option<Vec<Damage>> {
    if !entry.lends(Part::Adjacency) {
        return None;
    }
    let mut changed = Changed::of(lent);
    let has_chains = entry.lends(Part::Facing);
    let is_named = !has_chains || random.chance(2, 3);
    let is_listed = has_chains && (!is_named || random.chance(1, 2));
    for _ in 0..random.pick(&[1, 1, 2]) {
        if is_named {
            name_again(random, &mut changed);
        }
        if is_listed {
            list_again(random, &mut changed);
        }
    }
    if changed.damages.is_empty() {
        return None;
    }
    if is_listed && random.chance(3, 4) {
        give_room(lent, &mut changed);
    }
    add_another(random, entry, &mut changed);
    Some(changed.damages)
}

/// Lets more faces name a cell: ones that named another, or new ones.
pub(super) fn name_again(random: &mut Random, changed: &mut Changed) {
    let cells = changed.lent.counts.cells;
    let cell = random.below(cells);
    let wanted = random
        .pick(&TOTALS)
        .saturating_sub(namings(&changed.lent)[cell]);
    let adjacency = &changed.lent.slices.adjacency;
    let names = |face: usize| adjacency[2 * face] == cell || adjacency[2 * face + 1] == cell + 1;
    let faces = 0..changed.lent.counts.faces;
    let (own, mut others): (Vec<usize>, Vec<usize>) = faces.partition(|&face| names(face));
    if wanted <= others.len() && random.chance(1, 2) {
        for _ in 0..wanted {
            let face = others.swap_remove(random.below(others.len()));
            changed.make(match random.chance(1, 2) {
                true => Damage::Whole(Part::Adjacency, 2 * face, cell),
                false => Damage::Whole(Part::Adjacency, 2 * face + 1, cell + 1),
            });
        }
        return;
    }
    let first = random.below(wanted + 1);
    for count in [first, wanted - first] {
        let other = (cell + random.below(cells)) % cells;
        let like = match own.is_empty() {
            true => random.below(changed.lent.counts.faces),
            false => random.pick(&own),
        };
        let adjacency = &changed.lent.slices.adjacency;
        let (owner, neighbour) = match random.below(3) {
            0 => (cell, 0),
            1 if other != cell => (other, cell + 1),
            _ if own.is_empty() => (cell, 0),
            _ => (adjacency[2 * like], adjacency[2 * like + 1]),
        };
        if count > 0 {
            changed.make(Damage::Faces {
                count,
                owner,
                neighbour,
                like,
            });
        }
    }
}

/// Puts more records into a cell's chain of faces.
fn list_again(random: &mut Random, changed: &mut Changed) {
    let cell = random.below(changed.lent.counts.cells);
    let found = face_records(&changed.lent)[cell];
    let count = random.pick(&TOTALS).saturating_sub(found);
    if count > 0 {
        changed.make(Damage::Longer {
            count,
            cell,
            face: random.below(changed.lent.counts.faces),
        });
    }
}

/// Room for the equations that new records give.
fn give_room(good: &Lent, changed: &mut Changed) {
    let more = changed.lent.counts.face_records - good.counts.face_records;
    let records = (good.records + more).min(LIMIT);
    changed.make(Damage::Count(Count::Records, records));
    changed.make(Damage::Output(Part::Equations, 2 * records));
    changed.make(Damage::Output(Part::Weights, 4 * records));
}

/// Something else, half of the time: what 1 to 6 refuse, a float, or the records in another order.
pub(super) fn add_another(random: &mut Random, entry: Entry, changed: &mut Changed) {
    let lent = &changed.lent;
    let others: Vec<Damage> = match random.below(14) {
        0 | 1 => of_links(random, entry, lent).unwrap_or_default(),
        2 => vec![bad_face(random, entry, lent)],
        3 | 4 => broken_chain(random, entry, lent).into_iter().collect(),
        5 => vec![random.pick(&of_shape(entry, lent))],
        6 => of_floats(random, entry, lent).into_iter().collect(),
        7 => of_layout(random, entry).into_iter().collect(),
        _ => Vec::new(),
    };
    for damage in others {
        changed.make(damage);
    }
}

fn bad_face(random: &mut Random, entry: Entry, lent: &Lent) -> Damage {
    let face = random.below(lent.counts.faces);
    match random.below(3) {
        0 if entry.lends(Part::Codes) => Damage::Whole(Part::Codes, 2 * face, 3),
        1 => {
            let owner = lent.slices.adjacency[2 * face];
            Damage::Whole(Part::Adjacency, 2 * face + 1, owner + 1)
        }
        _ => Damage::Whole(Part::Adjacency, 2 * face, lent.counts.cells),
    }
}

/// A chain that names a missing record, or a record that is its own next.
fn broken_chain(random: &mut Random, entry: Entry, lent: &Lent) -> Option<Damage> {
    let cell = random.below(lent.counts.cells);
    if entry.lends(Part::Starts) {
        return Some(Damage::Whole(Part::Starts, cell, lent.records + 1));
    }
    if !entry.lends(Part::Heads) {
        return None;
    }
    Some(match random.below(3) {
        0 => Damage::Whole(Part::Heads, 2 * cell, lent.counts.face_records + 1),
        1 => Damage::Whole(Part::Heads, 2 * cell + 1, usize::MAX),
        _ => {
            let record = random.between(1, lent.counts.face_records);
            Damage::Whole(Part::Facing, 2 * record - 1, record)
        }
    })
}
