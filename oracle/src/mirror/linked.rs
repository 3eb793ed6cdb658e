//! Copies of the step whose prediction of linked faces is written in another way, stands in another place, or leaves
//! other outputs.

use super::{faithful, Sham};
use crate::calls::{self, Outcome};
use crate::cases;
use crate::checks;
use crate::entry::{Entry, Part};
use crate::lent::{Lent, Slices, FACE_WIDTH, OTHER, OWN};
use crate::linked::{
    area, center, dot, finished, image_by, links, minus, norm, own, owner, pairs, place, predicted,
    refused_by_9, sides, step, Link, Sides, Writing, RIGHT,
};
use crate::port::{Answer, Call};

/// The second writing, behind the port's checks.
pub fn rewritten() -> Call {
    let checked = faithful(Entry::Step);
    Box::new(move |lent, outputs| {
        let before = outputs.clone();
        let written = as_written(lent, &before, outputs, |lent| step(&RIGHT, lent));
        written.unwrap_or_else(|| checked(lent, outputs))
    })
}

/// The call so written, where no check before arithmetic refuses.
fn as_written(
    lent: &Lent,
    before: &Slices,
    outputs: &mut Slices,
    step: impl Fn(&Lent) -> Outcome,
) -> Option<Answer> {
    if checks::check(Entry::Step, lent, before).is_some() {
        return None;
    }
    let outcome = step(lent);
    *outputs = outcome.contents(Entry::Step, before);
    Some(outcome.answer())
}

/// The same where there are links too; where there are none no copy differs.
fn with_links(
    lent: &Lent,
    before: &Slices,
    outputs: &mut Slices,
    step: impl Fn(&Lent) -> Outcome,
) -> Option<Answer> {
    let codes = lent.slices.codes.chunks_exact(2);
    let is_linked = codes.into_iter().any(|code| code[1] != 0);
    is_linked
        .then(|| as_written(lent, before, outputs, step))
        .flatten()
}

/// A step of another sequence or with other outputs.
macro_rules! stepped {
    ($name:literal, $step:expr) => {
        Sham {
            name: $name,
            entry: Entry::Step,
            fault: |lent, before, outputs, answer| {
                let step: fn(&Lent) -> Outcome = $step;
                with_links(lent, before, outputs, step).unwrap_or(answer)
            },
        }
    };
}

/// A writing with other parts.
macro_rules! miswritten {
    ($name:literal, $($part:ident = $how:expr),+) => {
        stepped!($name, |lent| {
            const WRITING: Writing = Writing {
                $($part: $how,)+
                ..RIGHT
            };
            step(&WRITING, lent)
        })
    };
}

/// Outputs that are changed where the call is accepted: what is lent with its parts, and the outputs.
macro_rules! handed_out {
    ($name:literal, $change:expr) => {
        Sham {
            name: $name,
            entry: Entry::Step,
            fault: |lent, _, outputs, answer| {
                let change: fn(&Lent, &mut Slices) = $change;
                if answer == Answer::Accepted {
                    let mut handed = lent.clone();
                    for &part in Entry::Step.outputs() {
                        handed.slices.take(part, outputs);
                    }
                    change(&handed, outputs);
                }
                answer
            },
        }
    };
}

/// Outputs that are changed where 9 refuses a linked face in its prediction.
macro_rules! left {
    ($name:literal, $change:expr) => {
        Sham {
            name: $name,
            entry: Entry::Step,
            fault: |lent, before, outputs, answer| {
                let change: fn(&Lent, &Slices, &mut Slices) = $change;
                if let Some(begun) = refused_at(lent, answer) {
                    change(&begun, before, outputs);
                }
                answer
            },
        }
    };
}

/// What the step has before the prediction of linked faces, where that is refused and with this answer.
fn refused_at(lent: &Lent, answer: Answer) -> Option<Lent> {
    let Answer::Refused(9, face) = answer else {
        return None;
    };
    let begun = cases::begun(lent).ok()?;
    (predicted(&RIGHT, &begun) == Err(face)).then_some(begun)
}

/// What is lent with the coefficients of faces with two cells, +0.0 elsewhere.
fn with_inner_coefficients(lent: &Lent) -> Result<Lent, Outcome> {
    let entries = [
        Entry::LeastSquaresStencil,
        Entry::RhieChowPredictedFlux,
        Entry::PressureFaceCoefficients,
    ];
    cases::handed_on(lent, &entries)
}

/// What is lent with all coefficients, but before any flux is predicted.
fn with_coefficients(lent: &Lent) -> Result<Lent, Outcome> {
    let entries = [
        Entry::LeastSquaresStencil,
        Entry::PressureFaceCoefficientsWithBoundary,
    ];
    cases::handed_on(lent, &entries)
}

fn face_of(refused: &Outcome) -> Option<usize> {
    match refused {
        Outcome::Refused(refusal) if refusal.number == 9 => Some(refusal.index),
        _ => None,
    }
}

/// The coefficient of a linked face as 9 tests it.
fn linked_coefficient(lent: &Lent, link: Link) -> f64 {
    let from = place(lent, owner(lent, link.face));
    let image = image_by(lent, link, 1.0);
    let [a, b] = [from, image].map(|at| norm(minus(center(lent, link.face), at)));
    let [own, other] = sides(lent, link).response;
    let way = minus(image, from);
    (b * own + a * other) / (a + b) * dot(area(lent, link.face), way) / dot(way, way)
}

fn is_bad(coefficient: f64) -> bool {
    !coefficient.is_finite() || coefficient <= 0.0
}

fn code(lent: &Lent, face: usize) -> usize {
    lent.slices.codes[2 * face]
}

/// A distance that a face carries.
fn carried(lent: &Lent, face: usize, place: usize) -> f64 {
    lent.slices.geometry[FACE_WIDTH * face + place]
}

/// The link back.
fn peer_of(link: Link) -> Link {
    Link {
        face: link.peer,
        peer: link.face,
    }
}

fn with_gradient_of_gauss(lent: &Lent, link: Link) -> Sides {
    let mut other = lent.clone();
    if let Outcome::Accepted(found) = calls::run(Entry::PressureCouplingGradient, lent) {
        other.slices.take(Part::Gradient, &found);
    }
    sides(&other, link)
}

/// The faces that 10 or 9 of the correction refuses and those that the prediction does, the lowest of both.
fn corrected_at_once(lent: &Lent) -> Outcome {
    let begun = match cases::begun(lent) {
        Ok(begun) => begun,
        Err(refused) => return refused,
    };
    let right = finished(&RIGHT, begun.clone());
    let (Some(linked), Err(_)) = (face_of(&right), predicted(&RIGHT, &begun)) else {
        return right;
    };
    // the faces before it, whose fluxes are finite
    let mut before = begun;
    for link in links(&before) {
        let own = own(&RIGHT, &before, link);
        before.slices.predicted[link.face] = match link.face < linked {
            true => own,
            false => 0.0,
        };
    }
    match calls::run(Entry::CorrectFaceFluxWithBoundary, &before) {
        Outcome::Refused(refusal) if refusal.index < linked => Outcome::Refused(refusal),
        _ => right,
    }
}

pub const SHAMS: &[Sham] = &[
    miswritten!("the higher keeps its own", pair = |_, _, own| own),
    miswritten!(
        "the higher takes the lower's, not negated",
        pair = |_, _, [lower, _]| [lower, lower]
    ),
    miswritten!(
        "the lower takes the higher's negated",
        pair = |_, _, [_, higher]| [-higher, higher]
    ),
    miswritten!(
        "the larger of both",
        pair = |_, _, [lower, higher]| {
            let larger = lower.max(-higher);
            [larger, -larger]
        }
    ),
    miswritten!(
        "the mean of both",
        pair = |_, _, [lower, higher]| {
            let mean = 0.5 * (lower - higher);
            [mean, -mean]
        }
    ),
    miswritten!(
        "the lower's taken from 0",
        pair = |_, _, [lower, _]| [lower, 0.0 - lower]
    ),
    miswritten!(
        "a zero is negated without its sign",
        pair = |_, _, [lower, _]| { [lower, if lower == 0.0 { lower } else { -lower }] }
    ),
    miswritten!(
        "opposite ones kept, whatever a zero's sign",
        pair = |_, _, [lower, higher]| { [lower, if higher == -lower { higher } else { -lower }] }
    ),
    miswritten!(
        "the face of the lower cell keeps its own",
        pair = |lent, link, [lower, higher]| {
            match owner(lent, link.face) <= owner(lent, link.peer) {
                true => [lower, -lower],
                false => [-higher, higher],
            }
        }
    ),
    miswritten!("the wall flux kept", is_predicted = |_, _| false),
    miswritten!(
        "the wall flux kept beside a fixed value",
        is_predicted = |lent, link| { code(lent, link.face) != 1 }
    ),
    miswritten!(
        "the wall flux kept at zero gradient",
        is_predicted = |lent, link| { code(lent, link.face) != 2 }
    ),
    miswritten!(
        "the wall flux kept without a condition",
        is_predicted = |lent, link| { code(lent, link.face) != 0 }
    ),
    miswritten!(
        "only the lower predicted",
        is_predicted = |_, link| link.face < link.peer,
        pair = |_, _, own| own
    ),
    miswritten!(
        "only faces that a chain names predicted",
        is_predicted = |lent, link| {
            let heads = lent.slices.heads.chunks_exact(2);
            let mut cells = heads.map(|heads| Lent::chain(&lent.slices.facing, heads[0]));
            cells.any(|faces| faces.contains(&link.face))
        }
    ),
    miswritten!(
        "a cell linked to itself not predicted",
        is_predicted = |lent, link| { owner(lent, link.face) != owner(lent, link.peer) }
    ),
    miswritten!(
        "the wall flux added",
        sum = |[velocity, covariance, pressure]| { velocity + covariance + pressure },
        pair = |lent, link, [lower, _]| {
            let flux = lower + lent.slices.walls[link.face];
            [flux, -flux]
        }
    ),
    miswritten!(
        "the coefficient of faces with two cells, 0",
        coefficient = |_, _| 0.0
    ),
    miswritten!(
        "the peer's coefficient",
        coefficient = |lent, link| lent.slices.coefficients[link.peer]
    ),
    miswritten!(
        "the mean of both coefficients",
        coefficient = |lent, link| {
            let coefficients = &lent.slices.coefficients;
            0.5 * (coefficients[link.face] + coefficients[link.peer])
        }
    ),
    miswritten!(
        "the lower's coefficient",
        coefficient = |lent, link| { lent.slices.coefficients[link.face.min(link.peer)] }
    ),
    miswritten!(
        "the image untranslated",
        image = |lent, link| image_by(lent, link, 0.0)
    ),
    miswritten!(
        "the image on the other side",
        image = |lent, link| image_by(lent, link, -1.0)
    ),
    miswritten!(
        "the image by the peer's translation added",
        image = |lent, link| {
            let translation = &lent.slices.values[4 * link.peer + 1..4 * link.peer + 4];
            let at = place(lent, owner(lent, link.peer));
            [0, 1, 2].map(|axis| at[axis] + translation[axis])
        }
    ),
    miswritten!(
        "the image by the way between the faces' centres",
        image = |lent, link| {
            let way = minus(center(lent, link.peer), center(lent, link.face));
            minus(place(lent, owner(lent, link.peer)), way)
        }
    ),
    miswritten!(
        "the distance that a linked face carries",
        far = |lent, link, _| { carried(lent, link.face, OTHER) }
    ),
    miswritten!(
        "the distance to the cell beyond, untranslated",
        far = |lent, link, _| { norm(minus(center(lent, link.face), image_by(lent, link, 0.0))) }
    ),
    miswritten!(
        "its own distance on both sides",
        far = |lent, link, _| carried(lent, link.face, OWN)
    ),
    miswritten!(
        "each side by its own distance",
        weight = |[a, b]| a / (a + b)
    ),
    miswritten!("both sides alike", weight = |_| 0.5),
    miswritten!(
        "the other side's weight from 1",
        weight = |[a, b]| 1.0 - a / (a + b)
    ),
    miswritten!(
        "the least-squares gradient of the owner alone",
        sides = |lent, link| {
            let [own, _] = sides(lent, link).gradient;
            Sides {
                gradient: [own; 2],
                ..sides(lent, link)
            }
        }
    ),
    miswritten!("the gradient of Gauss", sides = with_gradient_of_gauss),
    miswritten!(
        "no gradient",
        sides = |lent, link| Sides {
            gradient: [[0.0; 3]; 2],
            ..sides(lent, link)
        }
    ),
    miswritten!(
        "both sides' responses the owner's",
        sides = |lent, link| {
            let [own, _] = sides(lent, link).response;
            Sides {
                response: [own; 2],
                ..sides(lent, link)
            }
        }
    ),
    miswritten!(
        "the pressures the other way round",
        sides = |lent, link| {
            let [own, other] = sides(lent, link).pressure;
            Sides {
                pressure: [other, own],
                ..sides(lent, link)
            }
        }
    ),
    miswritten!("velocity alone", sum = |[velocity, _, _]| velocity),
    miswritten!(
        "no covariance",
        sum = |[velocity, _, pressure]| velocity + pressure
    ),
    miswritten!(
        "the pressure's part taken away",
        sum = |[velocity, covariance, pressure]| { velocity + covariance - pressure }
    ),
    miswritten!(
        "summed from the right",
        sum = |[velocity, covariance, pressure]| { velocity + (covariance + pressure) }
    ),
    miswritten!(
        "the higher not tested",
        is_refused = |_, link, own| { link.face < link.peer && !own.is_finite() }
    ),
    miswritten!(
        "the lower not tested",
        is_refused = |_, link, own| { link.face > link.peer && !own.is_finite() }
    ),
    miswritten!("nothing tested", is_refused = |_, _, _| false),
    miswritten!(
        "an infinite one accepted",
        is_refused = |_, _, own| own.is_nan()
    ),
    miswritten!("a NaN accepted", is_refused = |_, _, own| own.is_infinite()),
    miswritten!(
        "a NaN for a wall flux refused",
        is_refused =
            |lent, link, own| { !own.is_finite() || lent.slices.walls[link.face].is_nan() }
    ),
    miswritten!(
        "a wall flux that is not finite refused",
        is_refused =
            |lent, link, own| { !own.is_finite() || !lent.slices.walls[link.face].is_finite() }
    ),
    miswritten!(
        "two predictions that are not opposite refused",
        is_refused = |lent, link, prediction| {
            !prediction.is_finite() || prediction != -own(&RIGHT, lent, peer_of(link))
        }
    ),
    miswritten!(
        "a linked face near its image refused",
        is_refused = |lent, link, own| {
            let way = minus(
                image_by(lent, link, 1.0),
                place(lent, owner(lent, link.face)),
            );
            !own.is_finite() || dot(way, way) <= f64::EPSILON
        }
    ),
    miswritten!(
        "the highest of those refused",
        named = |refused| refused[refused.len() - 1].face
    ),
    miswritten!(
        "the lower of the pair of the one refused",
        named = |refused| { refused[0].face.min(refused[0].peer) }
    ),
    miswritten!(
        "the higher of the pair of the one refused",
        named = |refused| { refused[0].face.max(refused[0].peer) }
    ),
    miswritten!(
        "a lower face before a higher one of any pair",
        named = |refused| {
            let lower = refused.iter().find(|link| link.face < link.peer);
            lower.unwrap_or(&refused[0]).face
        }
    ),
    miswritten!("index 0", named = |_| 0),
    stepped!("pair by pair, the lowest pair named", |lent| {
        let begun = match cases::begun(lent) {
            Ok(begun) => begun,
            Err(refused) => return refused,
        };
        for link in pairs(&begun) {
            for link in [link, peer_of(link)] {
                if !own(&RIGHT, &begun, link).is_finite() {
                    return refused_by_9(link.face);
                }
            }
        }
        finished(&RIGHT, begun)
    }),
    stepped!(
        "linked faces before the coefficients with boundary",
        |lent| {
            let mut begun = match with_inner_coefficients(lent) {
                Ok(begun) => begun,
                Err(refused) => return refused,
            };
            for link in links(&begun) {
                begun.slices.coefficients[link.face] = linked_coefficient(&begun, link);
            }
            match predicted(&RIGHT, &begun) {
                Ok(_) => step(&RIGHT, lent),
                Err(face) => refused_by_9(face),
            }
        }
    ),
    stepped!("each linked face with its coefficient", |lent| {
        let right = step(&RIGHT, lent);
        let Some(refused) = face_of(&right) else {
            return right;
        };
        let Ok(mut begun) = with_inner_coefficients(lent) else {
            return right;
        };
        for link in links(&begun).into_iter().filter(|link| link.face < refused) {
            begun.slices.coefficients[link.face] = linked_coefficient(&begun, link);
            if is_bad(linked_coefficient(&begun, link)) || !own(&RIGHT, &begun, link).is_finite() {
                return refused_by_9(link.face);
            }
        }
        right
    }),
    stepped!("all coefficients before all fluxes", |lent| {
        let begun = match with_coefficients(lent) {
            Ok(begun) => begun,
            Err(refused) => return refused,
        };
        match calls::linked_flux(&begun) {
            Outcome::Accepted(_) => step(&RIGHT, lent),
            refused => refused,
        }
    }),
    stepped!("linked faces with those of two cells", |lent| {
        let begun = match with_coefficients(lent) {
            Ok(begun) => begun,
            Err(_) => return step(&RIGHT, lent),
        };
        match calls::linked_flux(&begun) {
            Outcome::Accepted(_) => step(&RIGHT, lent),
            refused => refused,
        }
    }),
    stepped!(
        "each face corrected where it is predicted",
        corrected_at_once
    ),
    stepped!("the volumes before linked faces", |lent| {
        let begun = match cases::begun(lent) {
            Ok(begun) => begun,
            Err(refused) => return refused,
        };
        let mut calm = begun.clone();
        calm.slices.flux = vec![0.0; lent.counts.faces];
        match calls::run(Entry::ContinuityMetrics, &calm) {
            Outcome::Accepted(_) => finished(&RIGHT, begun),
            refused => refused,
        }
    }),
    stepped!(
        "the correction's missing condition before linked faces",
        |lent| {
            let begun = match cases::begun(lent) {
                Ok(begun) => begun,
                Err(refused) => return refused,
            };
            let bare = (0..lent.counts.faces).find(|&face| {
                lent.slices.adjacency[2 * face + 1] == 0
                    && lent.slices.codes[2 * face..2 * face + 2] == [0, 0]
            });
            match (finished(&RIGHT, begun), bare) {
                (Outcome::Refused(refusal), Some(face)) if refusal.number == 9 => {
                    Outcome::Refused(calls::Refusal {
                        number: 10,
                        index: face,
                        ..refusal
                    })
                }
                (right, _) => right,
            }
        }
    ),
    handed_out!(
        "the wall fluxes handed out as predicted",
        |lent, outputs| {
            for link in links(lent) {
                outputs.predicted[link.face] = lent.slices.walls[link.face];
            }
        }
    ),
    handed_out!(
        "the higher's own handed out as predicted",
        |lent, outputs| {
            for link in pairs(lent).map(peer_of) {
                outputs.predicted[link.face] = own(&RIGHT, lent, link);
            }
        }
    ),
    handed_out!("the higher's own corrected", |lent, outputs| {
        let mut begun = lent.clone();
        for link in pairs(lent).map(peer_of) {
            begun.slices.predicted[link.face] = own(&RIGHT, lent, link);
        }
        if let Outcome::Accepted(found) = cases::finished(&begun) {
            for part in [Part::Flux, Part::Outflow, Part::Metrics] {
                outputs.take(part, &found);
            }
        }
    }),
    handed_out!(
        "the higher's flux negated after the correction",
        |lent, outputs| {
            for link in pairs(lent) {
                outputs.flux[link.peer] = -outputs.flux[link.face];
            }
        }
    ),
    handed_out!("the wall fluxes corrected", |lent, outputs| {
        let mut begun = lent.clone();
        for link in links(lent) {
            begun.slices.predicted[link.face] = lent.slices.walls[link.face];
        }
        if let Outcome::Accepted(found) = cases::finished(&begun) {
            for part in [Part::Flux, Part::Outflow, Part::Metrics] {
                outputs.take(part, &found);
            }
        }
    }),
    handed_out!("linked faces not corrected", |lent, outputs| {
        for link in links(lent) {
            outputs.flux[link.face] = outputs.predicted[link.face];
        }
    }),
    left!(
        "the outputs untouched by 9 of a linked face",
        |_, before, outputs| {
            outputs.clone_from(before);
        }
    ),
    left!(
        "the prediction left by 9 of a linked face",
        |begun, _, outputs| {
            outputs.predicted.clone_from(&begun.slices.predicted);
        }
    ),
    left!(
        "the coefficients left by 9 of a linked face",
        |begun, _, outputs| {
            outputs.coefficients.clone_from(&begun.slices.coefficients);
        }
    ),
    left!(
        "the stencil left by 9 of a linked face",
        |begun, _, outputs| {
            for part in Entry::LeastSquaresStencil.outputs() {
                outputs.take(*part, &begun.slices);
            }
        }
    ),
    left!(
        "the flux untouched by 9 of a linked face",
        |_, before, outputs| {
            for part in [Part::Flux, Part::Outflow, Part::Metrics] {
                outputs.take(part, before);
            }
        }
    ),
];
