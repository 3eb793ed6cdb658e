//! Copies of the port that are wrong about 20, or about the distances that they make.

use super::Sham;
use crate::calls;
use crate::checks::{self, agree, stored_distances};
use crate::entry::{Entry, Part};
use crate::lent::{Lent, Slices, FACE_WIDTH, OTHER, OWN};
use crate::port::Answer;

/// What an entry with this search for a wrong face answers, where no check before 20 refuses.
macro_rules! misread {
    ($name:literal, $entry:ident, $search:expr) => {
        Sham {
            name: $name,
            entry: Entry::$entry,
            fault: |lent, before, outputs, answer| {
                let search: fn(Entry, &Lent) -> Option<usize> = $search;
                searched(Entry::$entry, lent, before, outputs, answer, search)
            },
        }
    };
}

fn searched(
    entry: Entry,
    lent: &Lent,
    before: &Slices,
    outputs: &mut Slices,
    right: Answer,
    search: fn(Entry, &Lent) -> Option<usize>,
) -> Answer {
    if checks::before_distances(entry, lent, before).is_some() {
        return right;
    }
    match (search(entry, lent), right) {
        (Some(face), _) => {
            outputs.clone_from(before);
            Answer::Refused(20, face)
        }
        (None, Answer::Refused(20, _)) => {
            let outcome = calls::run(entry, lent);
            *outputs = outcome.contents(entry, before);
            outcome.answer()
        }
        (None, right) => right,
    }
}

/// The lowest face of which a distance that is looked at is not, by this test, the one that is given.
fn lowest(
    lent: &Lent,
    is_seen: impl Fn(usize) -> [bool; 2],
    given: impl Fn(usize) -> [f64; 2],
    is_same: impl Fn(f64, f64) -> bool,
) -> Option<usize> {
    let mut faces = 0..lent.counts.faces;
    faces.find(|&face| {
        let (stored, seen, given) = (stored_distances(lent, face), is_seen(face), given(face));
        (0..2).any(|side| seen[side] && !is_same(stored[side], given[side]))
    })
}

fn seen(entry: Entry, lent: &Lent) -> impl Fn(usize) -> [bool; 2] + '_ {
    move |face| [true, checks::sees_other_side(entry, lent, face)]
}

/// The right ones.
fn given(lent: &Lent) -> impl Fn(usize) -> [f64; 2] + '_ {
    |face| checks::distances(lent, face).map(|given| given.expect("a sound mesh"))
}

/// The right ones, but for the other side of a linked face.
fn given_at_links<'a>(
    lent: &'a Lent,
    at_link: impl Fn(usize, usize) -> f64 + 'a,
) -> impl Fn(usize) -> [f64; 2] + 'a {
    move |face| {
        let [own, other] = given(lent)(face);
        match peer(lent, face) {
            Some(peer) => [own, at_link(face, peer)],
            None => [own, other],
        }
    }
}

fn peer(lent: &Lent, face: usize) -> Option<usize> {
    lent.slices.codes[2 * face + 1].checked_sub(1)
}

fn is_wall(lent: &Lent, face: usize) -> bool {
    lent.slices.adjacency[2 * face + 1] == 0 && peer(lent, face).is_none()
}

fn none(_: Entry, _: &Lent) -> Option<usize> {
    None
}

fn owners_alone(_: Entry, lent: &Lent) -> Option<usize> {
    lowest(lent, |_| [true, false], given(lent), agree)
}

fn others_alone(entry: Entry, lent: &Lent) -> Option<usize> {
    let seen = |face| [false, seen(entry, lent)(face)[1]];
    lowest(lent, seen, given(lent), agree)
}

/// The other side of every face looked at.
fn all_others(_: Entry, lent: &Lent) -> Option<usize> {
    lowest(lent, |_| [true, true], given(lent), agree)
}

/// The other side of faces with two cells alone looked at.
fn neighbours(_: Entry, lent: &Lent) -> Option<usize> {
    let seen = |face: usize| [true, lent.slices.adjacency[2 * face + 1] != 0];
    lowest(lent, seen, given(lent), agree)
}

/// Anything accepted where there is no other side.
fn not_at_walls(entry: Entry, lent: &Lent) -> Option<usize> {
    let seen = |face| [true, seen(entry, lent)(face)[1] && !is_wall(lent, face)];
    lowest(lent, seen, given(lent), agree)
}

fn image_distance(lent: &Lent, face: usize, peer: usize) -> f64 {
    lent.image_distance(face, peer).expect("a sound mesh")
}

fn image(entry: Entry, lent: &Lent) -> Option<usize> {
    let given = given_at_links(lent, |face, peer| image_distance(lent, face, peer));
    lowest(lent, seen(entry, lent), given, agree)
}

/// From a linked face itself to the owner of its peer.
fn peers_owner(entry: Entry, lent: &Lent) -> Option<usize> {
    let given = given_at_links(lent, |face, peer| {
        let owner = lent.slices.adjacency[2 * peer];
        lent.distance(face, owner).expect("a sound mesh")
    });
    lowest(lent, seen(entry, lent), given, agree)
}

/// The number that is stored with the peer, right or wrong.
fn peers_record(entry: Entry, lent: &Lent) -> Option<usize> {
    let given = given_at_links(lent, |_, peer| stored_distances(lent, peer)[0]);
    lowest(lent, seen(entry, lent), given, agree)
}

fn equal(stored: f64, given: f64) -> bool {
    stored == given || (stored.is_nan() && given.is_nan())
}

fn zeros_alike(entry: Entry, lent: &Lent) -> Option<usize> {
    lowest(lent, seen(entry, lent), given(lent), equal)
}

fn no_nan(entry: Entry, lent: &Lent) -> Option<usize> {
    let same = |stored: f64, given: f64| stored.to_bits() == given.to_bits() && !given.is_nan();
    lowest(lent, seen(entry, lent), given(lent), same)
}

fn payloads(entry: Entry, lent: &Lent) -> Option<usize> {
    let same = |stored: f64, given: f64| stored.to_bits() == given.to_bits();
    lowest(lent, seen(entry, lent), given(lent), same)
}

/// A NaN only where its sign is not set.
fn negative_nan(entry: Entry, lent: &Lent) -> Option<usize> {
    let is_nan = |x: f64| x.to_bits() > f64::INFINITY.to_bits() && x.is_sign_positive();
    let same = |stored: f64, given: f64| {
        stored.to_bits() == given.to_bits() || (is_nan(stored) && given.is_nan())
    };
    lowest(lent, seen(entry, lent), given(lent), same)
}

/// Anything stored agrees with a NaN, as where the two are compared by `<` and `>`.
fn nan_with_any(entry: Entry, lent: &Lent) -> Option<usize> {
    let same = |stored: f64, given: f64| agree(stored, given) || stored.is_nan() || given.is_nan();
    lowest(lent, seen(entry, lent), given(lent), same)
}

fn next_number(entry: Entry, lent: &Lent) -> Option<usize> {
    let same = |stored: f64, given: f64| {
        agree(stored, given) || stored.to_bits().abs_diff(given.to_bits()) == 1
    };
    lowest(lent, seen(entry, lent), given(lent), same)
}

/// For the owner's distance the root of the squares beside the right one accepted too.
fn next_square(entry: Entry, lent: &Lent) -> Option<usize> {
    let mut wrong = checks::wrong_distances(entry, lent).into_iter();
    wrong.find(|&face| {
        let square = owner_square(lent, face);
        let roots = [square.next_down(), square, square.next_up()].map(f64::sqrt);
        let [own, _] = stored_distances(lent, face);
        let is_near = roots.into_iter().any(|root| agree(own, root));
        !is_near || checks::wrong_sides(entry, lent, face)[1]
    })
}

/// The square of the distance from a face to its owner.
fn owner_square(lent: &Lent, face: usize) -> f64 {
    let cell = lent.slices.adjacency[2 * face];
    let [x, y, z] = [0, 1, 2].map(|axis| {
        lent.slices.geometry[FACE_WIDTH * face + axis] - lent.slices.places[4 * cell + axis]
    });
    x * x + y * y + z * z
}

/// Infinity and the largest number alike.
fn infinity(entry: Entry, lent: &Lent) -> Option<usize> {
    let finite = |x: f64| x.clamp(f64::MIN, f64::MAX);
    let same = |stored: f64, given: f64| agree(finite(stored), finite(given));
    lowest(lent, seen(entry, lent), given(lent), same)
}

/// A number, its sign aside.
fn magnitudes(entry: Entry, lent: &Lent) -> Option<usize> {
    let same = |stored: f64, given: f64| agree(stored.abs(), given.abs());
    lowest(lent, seen(entry, lent), given(lent), same)
}

fn highest(entry: Entry, lent: &Lent) -> Option<usize> {
    checks::wrong_distances(entry, lent).pop()
}

/// Every distance to an owner before any on the other side.
fn owners_first(entry: Entry, lent: &Lent) -> Option<usize> {
    owners_alone(entry, lent).or_else(|| others_alone(entry, lent))
}

fn without_last(entry: Entry, lent: &Lent) -> Option<usize> {
    let wrong = checks::wrong_distances(entry, lent).first().copied();
    wrong.filter(|&face| face + 1 < lent.counts.faces)
}

/// The lowest wrong face named, where a check before 20 refuses too.
macro_rules! before {
    ($name:literal, $entry:ident, $number:literal) => {
        Sham {
            name: $name,
            entry: Entry::$entry,
            fault: |lent, _, _, answer| match answer {
                Answer::Refused($number, _) => checks::wrong_distances(Entry::$entry, lent)
                    .first()
                    .map_or(answer, |&face| Answer::Refused(20, face)),
                answer => answer,
            },
        }
    };
}

/// What the Rust refuses, before 20.
macro_rules! after_arithmetic {
    ($entry:ident) => {
        Sham {
            name: "arithmetic before 20",
            entry: Entry::$entry,
            fault: |lent, before, outputs, answer| match answer {
                Answer::Refused(20, _) => match calls::run(Entry::$entry, lent) {
                    calls::Outcome::Accepted(_) => answer,
                    outcome => {
                        *outputs = outcome.contents(Entry::$entry, before);
                        outcome.answer()
                    }
                },
                answer => answer,
            },
        }
    };
}

/// Where distances are made, they are made otherwise; `$change` has what was lent, the geometry before and that which
/// is right.
macro_rules! mismade {
    ($name:literal, $change:expr) => {
        Sham {
            name: $name,
            entry: Entry::FaceDistances,
            fault: |lent, before, outputs, answer| {
                if answer == Answer::Accepted {
                    let change: fn(&Lent, &[f64], &mut [f64]) = $change;
                    change(lent, &before.geometry, &mut outputs.geometry);
                }
                answer
            },
        }
    };
}

fn records(geometry: &mut [f64]) -> impl Iterator<Item = (usize, &mut [f64])> {
    geometry.chunks_exact_mut(FACE_WIDTH).enumerate()
}

/// Another number for the other side of linked faces.
fn remake_links(lent: &Lent, geometry: &mut [f64], distance: impl Fn(usize, usize) -> f64) {
    for (face, record) in records(geometry) {
        if let Some(peer) = peer(lent, face) {
            record[OTHER] = distance(face, peer);
        }
    }
}

pub const SHAMS: &[Sham] = &[
    misread!("no distance looked at", PressureFaceCoefficients, none),
    misread!("no distance looked at", Step, none),
    misread!("no distance looked at", GaussGradientFromFaces, none),
    misread!(
        "the other side not looked at",
        PressureFaceCoefficients,
        owners_alone
    ),
    misread!(
        "the other side not looked at",
        LeastSquaresStencil,
        owners_alone
    ),
    misread!("the other side not looked at", Step, owners_alone),
    misread!(
        "the owner's distance not looked at",
        RhieChowPredictedFlux,
        others_alone
    ),
    misread!(
        "the other side of one-cell faces looked at without links",
        PressureFaceCoefficients,
        all_others
    ),
    misread!(
        "the other side of one-cell faces looked at without links",
        RhieChowPredictedFlux,
        all_others
    ),
    misread!(
        "the other side of one-cell faces looked at without links",
        GaussGradientFromFaces,
        all_others
    ),
    misread!(
        "the other side of one-cell faces looked at without links",
        PressureCouplingGradientWithoutConditions,
        all_others
    ),
    misread!(
        "the other side of one-cell faces not looked at",
        LeastSquaresStencil,
        neighbours
    ),
    misread!(
        "the other side of one-cell faces not looked at",
        PressureCouplingGradient,
        neighbours
    ),
    misread!(
        "anything where there is no other side",
        PressureFaceCoefficientsWithBoundary,
        not_at_walls
    ),
    misread!("anything where there is no other side", Step, not_at_walls),
    misread!("the image distance", LeastSquaresStencil, image),
    misread!(
        "the image distance",
        PressureFaceCoefficientsWithBoundary,
        image
    ),
    misread!("the image distance", Step, image),
    misread!("the image distance", PressureCouplingGradient, image),
    misread!(
        "from the face itself to its peer's owner",
        Step,
        peers_owner
    ),
    misread!(
        "the peer by its stored record",
        PressureFaceCoefficientsWithBoundary,
        peers_record
    ),
    misread!("the peer by its stored record", Step, peers_record),
    misread!("a zero's sign ignored", LeastSquaresStencil, zeros_alike),
    misread!("a zero's sign ignored", Step, zeros_alike),
    misread!("no NaN accepted", PressureFaceCoefficients, no_nan),
    misread!("a NaN's payload held against", Step, payloads),
    misread!(
        "a NaN's payload held against",
        PressureFaceCoefficientsWithBoundary,
        payloads
    ),
    misread!(
        "a NaN with its sign set held against",
        RhieChowPredictedFlux,
        negative_nan
    ),
    misread!(
        "a NaN with its sign set held against",
        LeastSquaresStencil,
        negative_nan
    ),
    misread!("a number and a NaN alike", Step, nan_with_any),
    misread!(
        "the next number accepted",
        PressureFaceCoefficients,
        next_number
    ),
    misread!("the next number accepted", Step, next_number),
    misread!(
        "the root of the next square accepted",
        PressureFaceCoefficients,
        next_square
    ),
    misread!("the root of the next square accepted", Step, next_square),
    misread!("infinity and a number alike", Step, infinity),
    misread!("a sign ignored", PressureFaceCoefficients, magnitudes),
    misread!("the highest wrong face", LeastSquaresStencil, highest),
    misread!("the highest wrong face", PressureFaceCoefficients, highest),
    misread!(
        "the highest wrong face",
        PressureFaceCoefficientsWithBoundary,
        highest
    ),
    misread!("the highest wrong face", RhieChowPredictedFlux, highest),
    misread!("the highest wrong face", Step, highest),
    misread!("the highest wrong face", GaussGradientFromFaces, highest),
    misread!("the highest wrong face", PressureCouplingGradient, highest),
    misread!("owners' distances first", Step, owners_first),
    misread!("the last face not looked at", Step, without_last),
    before!("20 before 6", LeastSquaresStencil, 6),
    before!("20 before 6", PressureFaceCoefficientsWithBoundary, 6),
    before!("20 before 6", Step, 6),
    before!("20 before 6", PressureCouplingGradient, 6),
    before!("20 before 14", PressureFaceCoefficients, 14),
    before!("20 before 14", Step, 14),
    before!("20 before 5", RhieChowPredictedFlux, 5),
    before!("20 before 4", Step, 4),
    after_arithmetic!(PressureFaceCoefficients),
    after_arithmetic!(Step),
    Sham {
        name: "outputs cleared by 20",
        entry: Entry::Step,
        fault: |_, _, outputs, answer| {
            if let Answer::Refused(20, _) = answer {
                outputs.flux.fill(0.0);
            }
            answer
        },
    },
    mismade!("nothing written", |_, before, geometry| geometry
        .copy_from_slice(before)),
    mismade!("the other side not written", |_, before, geometry| {
        for (face, record) in records(geometry) {
            record[OTHER] = before[FACE_WIDTH * face + OTHER];
        }
    }),
    mismade!("what has no other side left", |lent, before, geometry| {
        for (face, record) in records(geometry) {
            if is_wall(lent, face) {
                record[OTHER] = before[FACE_WIDTH * face + OTHER];
            }
        }
    }),
    mismade!("-0 where there is no other side", |lent, _, geometry| {
        for (face, record) in records(geometry) {
            if is_wall(lent, face) {
                record[OTHER] = -0.0;
            }
        }
    }),
    mismade!("the last face left", |_, before, geometry| {
        let last = geometry.len().saturating_sub(FACE_WIDTH);
        geometry[last..].copy_from_slice(&before[last..]);
    }),
    mismade!("the image distance", |lent, _, geometry| {
        remake_links(lent, geometry, |face, peer| {
            image_distance(lent, face, peer)
        });
    }),
    mismade!("links not looked at", |lent, _, geometry| {
        remake_links(lent, geometry, |_, _| 0.0);
    }),
    mismade!(
        "the peer's record as it stood before",
        |lent, before, geometry| {
            remake_links(lent, geometry, |_, peer| before[FACE_WIDTH * peer + OWN]);
        }
    ),
    mismade!("the owner's distance on both sides", |lent, _, geometry| {
        for (face, record) in records(geometry) {
            if !is_wall(lent, face) {
                record[OTHER] = record[OWN];
            }
        }
    }),
    mismade!("another order of the squares", |lent, _, geometry| {
        for (face, record) in records(geometry) {
            let cell = lent.slices.adjacency[2 * face];
            let places = &lent.slices.places[4 * cell..];
            let [x, y, z] = [0, 1, 2].map(|axis| record[axis] - places[axis]);
            record[OWN] = (x * x + (y * y + z * z)).sqrt();
        }
    }),
    mismade!("the area vector cleared", |_, _, geometry| {
        records(geometry).for_each(|(_, record)| record[3..6].fill(0.0));
    }),
    mismade!("a kept NaN without its payload", |_, _, geometry| {
        let nans = geometry.iter_mut().filter(|x| x.is_nan());
        nans.for_each(|x| *x = f64::NAN);
    }),
    Sham {
        name: "20 of what stood there before",
        entry: Entry::FaceDistances,
        fault: |lent, before, outputs, answer| {
            if answer != Answer::Accepted {
                return answer;
            }
            match checks::wrong_distances(Entry::Step, lent).first() {
                Some(&face) => {
                    outputs.clone_from(before);
                    Answer::Refused(20, face)
                }
                None => answer,
            }
        },
    },
    Sham {
        name: "distances cleared by a check",
        entry: Entry::FaceDistances,
        fault: |_, _, outputs, answer| {
            if answer != Answer::Accepted {
                for record in outputs.geometry.chunks_exact_mut(FACE_WIDTH) {
                    record[OWN..].fill(0.0);
                }
            }
            answer
        },
    },
    Sham {
        name: "bad links let through",
        entry: Entry::FaceDistances,
        fault: |_, _, _, answer| match answer {
            Answer::Refused(6, _) => Answer::Accepted,
            answer => answer,
        },
    },
    Sham {
        name: "conditions of any mesh",
        entry: Entry::FaceDistances,
        fault: |lent, before, outputs, answer| {
            let mut same = lent.clone();
            same.set_number(Part::Codes, lent.counts.mesh);
            if answer != Answer::Refused(3, 0)
                || checks::check(Entry::FaceDistances, &same, before).is_some()
            {
                return answer;
            }
            let outcome = calls::run(Entry::FaceDistances, &same);
            *outputs = outcome.contents(Entry::FaceDistances, before);
            outcome.answer()
        },
    },
];
