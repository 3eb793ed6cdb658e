//! Copies of steps in which the prediction of linked faces meets what no maker gives: wall fluxes of every kind at linked
//! faces, predictions that are not finite at chosen faces, links where there were none and at faces that no chain names,
//! predictions that are zeros; often with what another part of the step refuses beside it.

use super::crowd::add_another;
use super::{of_links, Changed, Count, Damage};
use crate::calls;
use crate::checks::LIMIT;
use crate::entry::{Entry, Part};
use crate::lent::{Lent, FACE_WIDTH};
use crate::linked::{area, center, links, minus, norm, owner, pairs, place, Link};
use crate::makers::{self, Style};
use crate::random::Random;

/// Wall fluxes that no sum should take.
const WALLS: [f64; 9] = [
    f64::NAN,
    -f64::NAN,
    f64::INFINITY,
    f64::NEG_INFINITY,
    1e308,
    -1e308,
    f64::MAX,
    f64::MIN,
    -0.0,
];

/// One kind of change.
type Kind = fn(&mut Random, &mut Changed);

const KINDS: [Kind; 11] = [
    walls, walls, endless, endless, endless, shifted, equal, conditions, zeros, near, wild,
];

/// The faces of a pair that are endless, 0 the lower.
const SIDES: [&[usize]; 4] = [&[0], &[1], &[1], &[0, 1]];

/// Changes of what the prediction of linked faces reads, distances made anew, records enough, and often what refuses
/// beside it. What is lent is good.
pub fn of_linked(random: &mut Random, entry: Entry, lent: &Lent) -> Option<Vec<Damage>> {
    if entry != Entry::Step || lent.counts.faces == 0 {
        return None;
    }
    let mut changed = Changed::of(lent);
    if random.chance(7, 8) {
        changed.make(Damage::Calm(random.next()));
    }
    if links(&changed.lent).is_empty() || random.chance(1, 4) {
        link(random, &mut changed);
    }
    if links(&changed.lent).is_empty() {
        return None;
    }
    for _ in 0..random.pick(&[1, 1, 2]) {
        random.pick(&KINDS)(random, &mut changed);
    }
    if random.chance(15, 16) {
        give_room(&mut changed);
    }
    if random.chance(1, 3) {
        beside(random, entry, &mut changed);
    }
    if changed.damages.iter().any(|damage| damage.moves()) {
        changed.make(Damage::Refilled);
    }
    Some(changed.damages)
}

/// Gives the fields of a step ordinary numbers, and one-cell faces conditions with such, at times some of these that
/// they had not.
pub fn calm(lent: &mut Lent, seed: u64) {
    let mut random = Random::new(seed);
    let slices = &mut lent.slices;
    for (part, style) in [
        (Part::Velocity, Style::Ordinary),
        (Part::Pressure, Style::Ordinary),
        (Part::Responses, Style::Positive),
        (Part::Walls, Style::Ordinary),
        (Part::Correction, Style::Ordinary),
    ] {
        for number in slices.floats_mut(part) {
            *number = makers::float(&mut random, style);
        }
    }
    for face in 0..lent.counts.faces {
        let is_wall = slices.adjacency[2 * face + 1] == 0 && slices.codes[2 * face + 1] == 0;
        if is_wall && slices.codes[2 * face] == 0 {
            slices.codes[2 * face] = random.between(1, 2);
        }
        slices.values[4 * face] = makers::float(&mut random, Style::Ordinary);
    }
}

/// Room for the equations of the stencil.
fn give_room(changed: &mut Changed) {
    let lent = &changed.lent;
    let enough = calls::equations_at_most(&lent.mesh(), &lent.conditions());
    let records = enough.min(LIMIT);
    changed.make(Damage::Count(Count::Records, records));
    changed.make(Damage::Output(Part::Equations, 2 * records));
    changed.make(Damage::Output(Part::Weights, 4 * records));
}

/// The one-cell faces without a link.
fn walls_of(lent: &Lent) -> Vec<usize> {
    let faces = 0..lent.counts.faces;
    faces
        .filter(|&face| {
            lent.slices.adjacency[2 * face + 1] == 0 && lent.slices.codes[2 * face + 1] == 0
        })
        .collect()
}

/// One face more, which no chain names, in all like this one but without a link.
fn add_face(changed: &mut Changed, like: usize) -> usize {
    changed.make(Damage::Faces {
        count: 1,
        owner: owner(&changed.lent, like),
        neighbour: 0,
        like,
    });
    changed.lent.counts.faces - 1
}

/// Links two faces that had no link, some of them new ones that no chain names; each sees its image before it.
fn link(random: &mut Random, changed: &mut Changed) {
    for _ in 0..random.pick(&[1, 1, 2]) {
        let mut walls = walls_of(&changed.lent);
        if walls.is_empty() {
            return;
        }
        let mut pick = |changed: &mut Changed| {
            let at = random.below(walls.len());
            let face = walls[at];
            match walls.len() == 1 || random.chance(1, 3) {
                true => add_face(changed, face),
                false => walls.swap_remove(at),
            }
        };
        let [face, peer] = [pick(changed), pick(changed)];
        for link in [
            Link { face, peer },
            Link {
                face: peer,
                peer: face,
            },
        ] {
            changed.make(Damage::Whole(Part::Codes, 2 * link.face + 1, link.peer + 1));
            changed.make(Damage::Whole(Part::Codes, 2 * link.face, random.below(3)));
            let far = random.range(0.2, 2.0) * own_distance(&changed.lent, link.face);
            see(changed, link, far);
        }
    }
}

fn own_distance(lent: &Lent, face: usize) -> f64 {
    norm(minus(center(lent, face), place(lent, owner(lent, face))))
}

/// Puts the image of a linked face so far before it.
fn see(changed: &mut Changed, link: Link, far: f64) {
    let lent = &changed.lent;
    let normal = normal(lent, link.face);
    let image = minus(center(lent, link.face), normal.map(|x| -far * x));
    let translation = minus(place(lent, owner(lent, link.peer)), image);
    translate(changed, link.face, translation);
}

fn translate(changed: &mut Changed, face: usize, translation: [f64; 3]) {
    for (axis, x) in translation.into_iter().enumerate() {
        changed.make(Damage::Float(Part::Values, 4 * face + 1 + axis, x));
    }
}

fn normal(lent: &Lent, face: usize) -> [f64; 3] {
    [0, 1, 2].map(|axis| lent.slices.geometry[FACE_WIDTH * face + 6 + axis])
}

fn set_area(changed: &mut Changed, face: usize, area: [f64; 3]) {
    for (axis, x) in area.into_iter().enumerate() {
        let at = FACE_WIDTH * face + 3 + axis;
        changed.make(Damage::Float(Part::Geometry, at, x));
    }
}

/// Wall fluxes at one linked face, at both of a pair, or at all.
fn walls(random: &mut Random, changed: &mut Changed) {
    let linked = links(&changed.lent);
    let link = random.pick(&linked);
    let faces = match random.below(3) {
        0 => vec![link.face],
        1 => vec![link.face, link.peer],
        _ => linked.iter().map(|link| link.face).collect(),
    };
    for face in faces {
        let flux = match random.chance(3, 4) {
            true => random.pick(&WALLS),
            false => makers::float(random, Style::Wild),
        };
        changed.make(Damage::Float(Part::Walls, face, flux));
    }
}

/// Predictions that are not finite: at the lower face of a pair, at the higher alone, at both, or at several pairs.
fn endless(random: &mut Random, changed: &mut Changed) {
    let mut left: Vec<Link> = pairs(&changed.lent).collect();
    for _ in 0..random.pick(&[1, 1, 1, 2, 3]) {
        if left.is_empty() {
            return;
        }
        let pair = left.swap_remove(random.below(left.len()));
        for &side in random.pick(&SIDES) {
            let [face, peer] = match side {
                0 => [pair.face, pair.peer],
                _ => [pair.peer, pair.face],
            };
            make_endless(random, changed, Link { face, peer });
        }
    }
}

/// The prediction of one linked face without end, by its area or by its image.
fn make_endless(random: &mut Random, changed: &mut Changed, link: Link) {
    let beside = random.pick(&[link.face, link.peer]);
    let cell = owner(&changed.lent, beside);
    let huge = normal(&changed.lent, link.face);
    let sign = random.pick(&[1.0, -1.0]);
    match random.below(4) {
        0 | 1 => {
            set_area(changed, link.face, huge.map(|x| 1e300 * x));
            for axis in 0..3 {
                changed.make(Damage::Float(Part::Velocity, 3 * cell + axis, sign * 1e10));
            }
        }
        2 => {
            set_area(changed, link.face, huge.map(|x| 1e200 * x));
            changed.make(Damage::Float(Part::Pressure, cell, sign * 1e150));
        }
        _ => {
            see(changed, link, 1e100);
            changed.make(Damage::Float(Part::Pressure, cell, sign * 1e250));
        }
    }
}

/// Translations a little off, of one face of a pair or of both, at times by what rounding leaves alone.
fn shifted(random: &mut Random, changed: &mut Changed) {
    let link = random.pick(&links(&changed.lent));
    let faces = match random.chance(1, 2) {
        true => vec![link.face],
        false => vec![link.face, link.peer],
    };
    for face in faces {
        let by = random.pick(&[1e-16, 1e-12, 1e-3, 0.1]);
        let translation = [1, 2, 3].map(|axis| {
            let x = changed.lent.slices.values[4 * face + axis];
            x + by * random.range(-1.0, 1.0)
        });
        translate(changed, face, translation);
    }
}

/// One response for all cells, and at times opposite areas besides, so that both coefficients of a pair may be equal.
fn equal(random: &mut Random, changed: &mut Changed) {
    let response = random.pick(&[0.5, 1.0, 0.3, 1e-5]);
    for cell in 0..changed.lent.counts.cells {
        changed.make(Damage::Float(Part::Responses, cell, response));
    }
    if random.chance(1, 2) {
        for link in pairs(&changed.lent).collect::<Vec<_>>() {
            let opposite = area(&changed.lent, link.face).map(|x| -x);
            set_area(changed, link.peer, opposite);
        }
    }
}

/// Conditions of some linked faces: absent ones, fixed values, zero gradient.
fn conditions(random: &mut Random, changed: &mut Changed) {
    let linked = links(&changed.lent);
    for _ in 0..random.between(1, 4) {
        let face = random.pick(&linked).face;
        let code = random.below(3);
        changed.make(Damage::Whole(Part::Codes, 2 * face, code));
        if random.chance(1, 3) {
            let value = makers::float(random, Style::Wild);
            changed.make(Damage::Float(Part::Values, 4 * face, value));
        }
    }
}

/// Predictions that are zeros: one pressure everywhere, and velocities of zeros, or of zeros against one face's area.
fn zeros(random: &mut Random, changed: &mut Changed) {
    let pressure = random.pick(&[0.0, -0.0, 1.0]);
    for cell in 0..changed.lent.counts.cells {
        changed.make(Damage::Float(Part::Pressure, cell, pressure));
    }
    for face in 0..changed.lent.counts.faces {
        if changed.lent.slices.codes[2 * face] == 1 {
            changed.make(Damage::Float(Part::Values, 4 * face, pressure));
        }
    }
    let face = random.pick(&links(&changed.lent)).face;
    let against = area(&changed.lent, face).map(|x| -0.0 * x);
    let along = against.map(|x| -x);
    let any = [0, 1, 2].map(|_| random.pick(&[0.0, -0.0]));
    let chosen = random.pick(&[[0.0; 3], [-0.0; 3], against, along, any]);
    for cell in 0..changed.lent.counts.cells {
        let velocity = match random.chance(1, 8) {
            true => any,
            false => chosen,
        };
        for (axis, x) in velocity.into_iter().enumerate() {
            changed.make(Damage::Float(Part::Velocity, 3 * cell + axis, x));
        }
    }
}

/// An image that is near its face's owner, or the face's centre that of the image; seen from a face that no chain names
/// it is no stencil's.
fn near(random: &mut Random, changed: &mut Changed) {
    let link = random.pick(&links(&changed.lent));
    let far = match random.chance(1, 2) {
        true => random.pick(&[1e-9, 1e-12, 0.0]),
        false => 1e-9 - own_distance(&changed.lent, link.face),
    };
    see(changed, link, far);
}

/// One number of any kind.
fn wild(random: &mut Random, changed: &mut Changed) {
    let link = random.pick(&links(&changed.lent));
    let cell = owner(&changed.lent, link.face);
    let axis = random.below(3);
    let (part, at) = match random.below(5) {
        0 => (Part::Velocity, 3 * cell + axis),
        1 => (Part::Pressure, cell),
        2 => (Part::Responses, cell),
        3 => (Part::Values, 4 * link.face + 1 + axis),
        _ => (Part::Geometry, FACE_WIDTH * link.face + 3 + axis),
    };
    let x = match random.chance(1, 2) {
        true => random.pick(&[1e308, -1e308, 1e200, 1e-300, f64::NAN, f64::INFINITY]),
        false => makers::float(random, Style::Wild),
    };
    changed.make(Damage::Float(part, at, x));
}

/// What another part of the step refuses: the coefficient of a fixed value, a flux between two cells, a face that the
/// correction finds without a condition, a corrected flux, a volume, or a check.
fn beside(random: &mut Random, entry: Entry, changed: &mut Changed) {
    let walls = walls_of(&changed.lent);
    let cell = random.below(changed.lent.counts.cells);
    let mut inner = 0..changed.lent.counts.faces;
    let inner = inner.find(|&face| changed.lent.slices.adjacency[2 * face + 1] != 0);
    match random.below(7) {
        0 if !walls.is_empty() => {
            let face = random.pick(&walls);
            changed.make(Damage::Whole(Part::Codes, 2 * face, 1));
            set_area(changed, face, [0.0; 3]);
        }
        1 => {
            if let Some(face) = inner {
                let huge = normal(&changed.lent, face).map(|x| 1e300 * x);
                set_area(changed, face, huge);
                let cell = owner(&changed.lent, face);
                for axis in 0..3 {
                    changed.make(Damage::Float(Part::Velocity, 3 * cell + axis, 1e10));
                }
            }
        }
        2 if !walls.is_empty() => {
            let bare = add_face(changed, random.pick(&walls));
            changed.make(Damage::Whole(Part::Codes, 2 * bare, 0));
        }
        3 => {
            let x = random.pick(&[1.7e308, -1.7e308, f64::NAN]);
            changed.make(Damage::Float(Part::Correction, cell, x));
        }
        4 => changed.make(Damage::Float(Part::Places, 4 * cell + 3, 0.0)),
        5 => {
            for damage in of_links(random, entry, &changed.lent).unwrap_or_default() {
                changed.make(damage);
            }
        }
        _ => add_another(random, entry, changed),
    }
}
