//! Copies with wrong distances, beside which other checks may refuse, and copies with centres that no maker gives.

use super::crowd::{add_another, name_again};
use super::{Changed, Damage};
use crate::checks::stored_distances;
use crate::entry::{Entry, Part};
use crate::lent::{Lent, FACE_WIDTH, OTHER, OWN};
use crate::makers::{self, Style};
use crate::random::Random;

/// How centres are chosen.
#[derive(Clone, Copy, Debug)]
pub enum Spread {
    /// Numbers of every kind.
    Wild,
    /// Ordinary ones times this power of two.
    Scaled(i32),
    /// Small whole ones, so that distances are often whole too.
    Whole,
    /// Cells at the origin; the square of a face's distance is about that of the middle between two numbers, times a
    /// power of four.
    Middle(i32),
}

/// Wrong distances at one face or two, or centres elsewhere with the distances that belong to them, at times all but
/// one; and often what another check or arithmetic refuses. An entry that makes the distances is lent none that are
/// right, so that its centres alone are elsewhere. What is lent is good.
pub fn of_distances(random: &mut Random, entry: Entry, lent: &Lent) -> Option<Vec<Damage>> {
    if !entry.lends(Part::Geometry) || lent.counts.faces == 0 {
        return None;
    }
    let mut changed = Changed::of(lent);
    let is_checked = entry.checks_distances();
    if !is_checked || random.chance(1, 3) {
        changed.make(Damage::Centres(any_spread(random), random.next()));
        if is_checked {
            changed.make(Damage::Refilled);
        }
        if is_checked && random.chance(1, 3) {
            let face = random.below(lent.counts.faces);
            let place = random.pick(&[OWN, OTHER]);
            changed.make(Damage::Flipped(FACE_WIDTH * face + place));
        }
    } else {
        for _ in 0..random.pick(&[1, 1, 2]) {
            spoil(random, &mut changed);
        }
    }
    match random.below(12) {
        0 | 1 => name_again(random, &mut changed),
        2..=4 => add_another(random, entry, &mut changed),
        _ => {}
    }
    Some(changed.damages)
}

/// With powers of two at which squares are subnormal, ordinary or infinite.
pub(super) fn any_spread(random: &mut Random) -> Spread {
    let power = match random.chance(1, 2) {
        true => random.pick(&[0, 0, 0, -537, -530, 511, 512]),
        false => random.between(0, 1058) as i32 - 545,
    };
    match random.below(5) {
        0 => Spread::Wild,
        1 => Spread::Scaled(power),
        2 => Spread::Whole,
        _ => Spread::Middle(power),
    }
}

/// Puts every centre elsewhere.
pub fn spread(lent: &mut Lent, spread: Spread, seed: u64) {
    let mut random = Random::new(seed);
    for record in lent.slices.geometry.chunks_exact_mut(FACE_WIDTH) {
        record[..3].copy_from_slice(&center(&mut random, spread));
    }
    for record in lent.slices.places.chunks_exact_mut(4) {
        let center = match spread {
            Spread::Middle(_) => [0.0; 3],
            _ => center(&mut random, spread),
        };
        record[..3].copy_from_slice(&center);
    }
}

fn center(random: &mut Random, spread: Spread) -> [f64; 3] {
    match spread {
        Spread::Wild => [0; 3].map(|_| makers::float(random, Style::Wild)),
        Spread::Scaled(power) => [0; 3].map(|_| scaled(random.range(-2.0, 2.0), power)),
        Spread::Whole => [0; 3].map(|_| random.below(13) as f64 - 6.0),
        Spread::Middle(power) => near_a_middle(random).map(|x| scaled(x, power)),
    }
}

/// The product with a power of two, which itself may not be a number of 64 bits.
fn scaled(x: f64, power: i32) -> f64 {
    x * 2f64.powi(power / 2) * 2f64.powi(power - power / 2)
}

/// A vector whose square is near that of the middle between two numbers from 1 to 2.
fn near_a_middle(random: &mut Random) -> [f64; 3] {
    let below = u128::from(random.next() >> 11 | 1 << 52);
    let square = (below * below + below) as f64;
    let x = square.sqrt() * random.range(0.1, 1.0);
    let y = (square - x * x).max(0.0).sqrt();
    let mut vector = [x, y, 0.0].map(|x| scaled(x, -52));
    vector.rotate_left(random.below(3));
    vector
}

/// The faces of what is lent, by what is on their other side.
struct Kinds {
    walls: Vec<usize>,
    /// With one cell, and with their peers.
    linked: Vec<(usize, usize)>,
}

fn kinds(lent: &Lent) -> Kinds {
    let mut kinds = Kinds {
        walls: Vec::new(),
        linked: Vec::new(),
    };
    for face in 0..lent.counts.faces {
        let peer = lent.slices.codes[2 * face + 1];
        match (lent.slices.adjacency[2 * face + 1], peer) {
            (0, 0) => kinds.walls.push(face),
            (0, _) => kinds.linked.push((face, peer - 1)),
            _ => {}
        }
    }
    kinds
}

/// A stored distance that is wrong, or another NaN for a NaN.
fn spoil(random: &mut Random, changed: &mut Changed) {
    let Kinds { walls, linked } = kinds(&changed.lent);
    let any = random.below(changed.lent.counts.faces);
    let at = |face: usize, place: usize| FACE_WIDTH * face + place;
    let store = |face, place, x| Damage::Float(Part::Geometry, at(face, place), x);
    let [own, other] = stored_distances(&changed.lent, any);
    let place = random.pick(&[OWN, OTHER]);
    match random.below(18) {
        0 | 1 => changed.make(Damage::Flipped(at(any, place))),
        2 => changed.make(store(any, OWN, 0.0)),
        3 => changed.make(store(any, OWN, -own)),
        4 => {
            changed.make(store(any, OWN, other));
            changed.make(store(any, OTHER, own));
        }
        5 => changed.make(store(any, place, nan(random))),
        6 => changed.make(store(any, place, f64::INFINITY)),
        7 => {
            let x = random.pick(&[f64::NAN, f64::NEG_INFINITY, f64::INFINITY]);
            changed.make(store(any, random.below(3), x));
            changed.make(Damage::Refilled);
            changed.make(store(any, OWN, random.pick(&[own, 0.0, f64::MAX])));
        }
        8 | 9 => {
            changed.make(store(any, random.below(3), f64::NAN));
            changed.make(Damage::Refilled);
            changed.make(store(any, OWN, nan(random)));
        }
        10 => {
            changed.make(store(any, random.below(3), 1e300));
            changed.make(Damage::Refilled);
            let x = random.pick(&[f64::MAX, 1e300, f64::NAN, f64::NEG_INFINITY]);
            changed.make(store(any, OWN, x));
        }
        // a centre is elsewhere, the distances are as they were
        11 => changed.make(Damage::Flipped(at(any, random.below(3)))),
        12 if !walls.is_empty() => changed.make(store(random.pick(&walls), OTHER, -0.0)),
        13 if !walls.is_empty() => {
            let wall = random.pick(&walls);
            let [own, _] = stored_distances(&changed.lent, wall);
            changed.make(store(wall, OTHER, random.pick(&[own, 5e-324, f64::NAN])));
        }
        14 | 15 if !linked.is_empty() => {
            let (face, peer) = random.pick(&linked);
            let image = changed.lent.image_distance(face, peer);
            changed.make(store(face, OTHER, image.expect("a sound mesh")));
        }
        16 if !linked.is_empty() => {
            let (_, peer) = random.pick(&linked);
            changed.make(Damage::Flipped(at(peer, OWN)));
        }
        // the links gone, the distances as with them
        17 if !linked.is_empty() => {
            let (face, peer) = random.pick(&linked);
            for face in [face, peer] {
                changed.make(Damage::Whole(Part::Codes, 2 * face + 1, 0));
            }
        }
        _ => changed.make(Damage::Flipped(at(any, place))),
    }
}

/// A NaN of either sign with any payload.
fn nan(random: &mut Random) -> f64 {
    f64::from_bits(random.next() | 0x7ff0_0000_0000_0001)
}
