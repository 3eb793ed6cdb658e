//! Copies in which the gradients of Gauss meet what no maker gives: volumes of every kind, centres in one place or
//! without end, conditions beside links, numbers and area vectors of every kind.

use super::crowd::add_another;
use super::distance::any_spread;
use super::{of_links, Changed, Damage};
use crate::checks::MOST;
use crate::entry::{Entry, Part};
use crate::lent::{Lent, FACE_WIDTH, OTHER, OWN};
use crate::makers::{self, Style};
use crate::random::Random;

/// Volumes that 12 refuses.
const REFUSED: [f64; 8] = [
    0.0,
    -0.0,
    -1.0,
    -5e-324,
    -1e-310,
    -f64::MIN_POSITIVE,
    f64::MIN,
    f64::NEG_INFINITY,
];

/// Volumes that it lets through.
const PASSED: [f64; 8] = [
    f64::NAN,
    -f64::NAN,
    f64::INFINITY,
    5e-324,
    1e-310,
    f64::MIN_POSITIVE,
    1e-12,
    f64::MAX,
];

/// Numbers of which sums and products are not ordinary.
const NUMBERS: [f64; 10] = [
    f64::NAN,
    f64::INFINITY,
    f64::NEG_INFINITY,
    0.0,
    -0.0,
    5e-324,
    -5e-324,
    -1e-310,
    f64::MAX,
    f64::MIN,
];

/// One kind of change.
type Kind = fn(&mut Random, Entry, &mut Changed);

/// One to three changes of what an entry reads, distances made anew, and often what a check refuses beside them. What is
/// lent is good.
pub fn of_gradients(random: &mut Random, entry: Entry, lent: &Lent) -> Option<Vec<Damage>> {
    if !entry.is_gauss() || lent.counts.faces == 0 {
        return None;
    }
    let mut kinds: Vec<Kind> = vec![volumes, volumes, areas, numbers];
    if entry.lends(Part::Pressure) {
        kinds.extend([centres as Kind, centres]);
    }
    if entry.lends(Part::Codes) {
        kinds.extend([conditions as Kind, links, links]);
    }
    let mut changed = Changed::of(lent);
    for _ in 0..random.pick(&[1, 1, 2, 3]) {
        random.pick(&kinds)(random, entry, &mut changed);
    }
    if changed.damages.iter().any(|damage| damage.moves()) {
        changed.make(Damage::Refilled);
    }
    match random.below(6) {
        0 => beside(random, entry, &mut changed),
        1 => add_another(random, entry, &mut changed),
        _ => {}
    }
    Some(changed.damages)
}

/// Volumes at the first cell, at the second alone, at the last, or at some.
fn volumes(random: &mut Random, _: Entry, changed: &mut Changed) {
    let cells = changed.lent.counts.cells;
    let mut named = match random.below(5) {
        0 => vec![0],
        1 => vec![1 % cells],
        2 => vec![cells - 1],
        3 => vec![random.below(cells)],
        _ => (0..random.between(2, 4))
            .map(|_| random.below(cells))
            .collect(),
    };
    named.dedup();
    for cell in named {
        let volume = match random.below(8) {
            0..=3 => random.pick(&REFUSED),
            4..=6 => random.pick(&PASSED),
            _ => makers::float(random, Style::Wild),
        };
        changed.make(Damage::Float(Part::Places, 4 * cell + 3, volume));
    }
}

/// One number of an area vector, or all three.
fn areas(random: &mut Random, _: Entry, changed: &mut Changed) {
    for _ in 0..random.between(1, 3) {
        let first = FACE_WIDTH * random.below(changed.lent.counts.faces) + 3;
        let axes = match random.chance(1, 2) {
            true => 0..3,
            false => {
                let axis = random.below(3);
                axis..axis + 1
            }
        };
        for axis in axes {
            let x = number(random);
            changed.make(Damage::Float(Part::Geometry, first + axis, x));
        }
    }
}

/// Some of the numbers that the gradient is taken of, or up to 16 of them alike.
fn numbers(random: &mut Random, entry: Entry, changed: &mut Changed) {
    let part = match entry.lends(Part::Pressure) {
        true => Part::Pressure,
        false => Part::FaceValues,
    };
    let length = changed.lent.slices.slice(part).len();
    if random.chance(1, 4) {
        let x = random.pick(&[0.0, -0.0, -0.0, 5e-324, f64::MAX]);
        for at in 0..length.min(16) {
            changed.make(Damage::Float(part, at, x));
        }
        return;
    }
    for _ in 0..random.between(1, 3) {
        let at = random.below(length);
        let x = number(random);
        changed.make(Damage::Float(part, at, x));
    }
}

fn number(random: &mut Random) -> f64 {
    match random.chance(2, 3) {
        true => random.pick(&NUMBERS),
        false => makers::float(random, Style::Wild),
    }
}

/// Conditions of some faces, whatever their cells and links: absent ones, fixed values, zero gradient.
fn conditions(random: &mut Random, _: Entry, changed: &mut Changed) {
    for _ in 0..random.between(1, 4) {
        let face = random.below(changed.lent.counts.faces);
        let code = random.below(3);
        condition(random, changed, face, code);
    }
}

fn condition(random: &mut Random, changed: &mut Changed, face: usize, code: usize) {
    changed.make(Damage::Whole(Part::Codes, 2 * face, code));
    if code == 1 {
        let value = match random.chance(1, 3) {
            true => number(random),
            false => random.range(-2.0, 2.0),
        };
        changed.make(Damage::Float(Part::Values, 4 * face, value));
    }
}

/// The one-cell faces, linked ones and others.
fn one_cell_faces(lent: &Lent) -> [Vec<usize>; 2] {
    let faces = 0..lent.counts.faces;
    let mut faces: Vec<usize> = faces
        .filter(|&face| lent.slices.adjacency[2 * face + 1] == 0)
        .collect();
    let linked = faces
        .iter()
        .copied()
        .filter(|&face| lent.slices.codes[2 * face + 1] != 0)
        .collect();
    faces.retain(|&face| lent.slices.codes[2 * face + 1] == 0);
    [linked, faces]
}

/// A link where there is none, or another translation; and a condition beside a link, mostly a fixed value.
fn links(random: &mut Random, _: Entry, changed: &mut Changed) {
    let [linked, mut walls] = one_cell_faces(&changed.lent);
    let face = if !linked.is_empty() && random.chance(3, 4) {
        let face = random.pick(&linked);
        if random.chance(1, 3) {
            translate(random, changed, face);
        }
        face
    } else if walls.len() > 1 {
        let face = walls.swap_remove(random.below(walls.len()));
        let peer = random.pick(&walls);
        for (face, peer) in [(face, peer), (peer, face)] {
            changed.make(Damage::Whole(Part::Codes, 2 * face + 1, peer + 1));
            translate(random, changed, face);
        }
        face
    } else {
        return;
    };
    if random.chance(3, 4) {
        let code = random.pick(&[1, 1, 1, 2, 0]);
        condition(random, changed, face, code);
    }
}

/// The translation of a linked face: about the way from its centre to its peer's, or of any kind.
fn translate(random: &mut Random, changed: &mut Changed, face: usize) {
    let peer = changed.lent.slices.codes[2 * face + 1] - 1;
    let is_any = random.chance(1, 6);
    for axis in 0..3 {
        let center = |face: usize| changed.lent.slices.geometry[FACE_WIDTH * face + axis];
        let x = match is_any {
            true => number(random),
            false => center(peer) - center(face) + random.range(-0.1, 0.1),
        };
        changed.make(Damage::Float(Part::Values, 4 * face + 1 + axis, x));
    }
}

/// Centres elsewhere throughout; or a face's centre that of its owner, of the other side, or all three in one place.
fn centres(random: &mut Random, entry: Entry, changed: &mut Changed) {
    if random.chance(1, 3) {
        changed.make(Damage::Centres(any_spread(random), random.next()));
        return;
    }
    let face = random.below(changed.lent.counts.faces);
    let slices = &changed.lent.slices;
    let owner = slices.adjacency[2 * face];
    let peer = slices.codes[2 * face + 1].checked_sub(1);
    let (other, is_linked) = match (slices.adjacency[2 * face + 1], peer) {
        (0, Some(peer)) if entry.lends(Part::Codes) => (Some(slices.adjacency[2 * peer]), true),
        (0, _) => (None, false),
        (neighbour, _) => (Some(neighbour - 1), false),
    };
    let of_cell = |cell: usize| [0, 1, 2].map(|axis| slices.places[4 * cell + axis]);
    let shift = |at: [f64; 3]| match is_linked {
        true => [0, 1, 2].map(|axis| at[axis] - slices.values[4 * face + 1 + axis]),
        false => at,
    };
    let beyond = other.map(|cell| (cell, shift(of_cell(cell))));
    let own = of_cell(owner);
    match (random.below(4), beyond) {
        (0, Some((_, center))) => place_face(changed, face, center),
        (1 | 2, Some((other, _))) => {
            for (axis, x) in own.into_iter().enumerate() {
                changed.make(Damage::Float(Part::Places, 4 * other + axis, x));
                if is_linked {
                    let at = 4 * face + 1 + axis;
                    changed.make(Damage::Float(Part::Values, at, 0.0));
                }
            }
            place_face(changed, face, own);
        }
        // so near that the square of the distance is 0
        (3, _) => {
            for axis in 0..3 {
                changed.make(Damage::Float(Part::Places, 4 * owner + axis, 0.0));
            }
            place_face(changed, face, [1e-170, -1e-200, 0.0]);
        }
        _ => place_face(changed, face, own),
    }
}

fn place_face(changed: &mut Changed, face: usize, center: [f64; 3]) {
    for (axis, x) in center.into_iter().enumerate() {
        changed.make(Damage::Float(Part::Geometry, FACE_WIDTH * face + axis, x));
    }
}

/// What a check before arithmetic refuses: a mesh number, a distance, links, or too many faces.
fn beside(random: &mut Random, entry: Entry, changed: &mut Changed) {
    let counts = changed.lent.counts;
    let face = random.below(counts.faces);
    let numbered: Vec<Part> = entry
        .inputs()
        .iter()
        .copied()
        .filter(|part| part.is_numbered())
        .collect();
    match random.below(8) {
        0..=2 => changed.make(Damage::Number(random.pick(&numbered), counts.mesh ^ 1)),
        3 | 4 => {
            let place = random.pick(&[OWN, OWN, OTHER]);
            changed.make(Damage::Flipped(FACE_WIDTH * face + place));
        }
        5 | 6 => {
            for damage in of_links(random, entry, &changed.lent).unwrap_or_default() {
                changed.make(damage);
            }
        }
        _ => {
            let owner = random.below(counts.cells);
            changed.make(Damage::Faces {
                count: MOST + 1,
                owner,
                neighbour: 0,
                like: face,
            });
        }
    }
}
