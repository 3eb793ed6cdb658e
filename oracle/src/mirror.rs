//! The comparison tried on itself: a port that is the checks and the Rust must agree, that port spoiled in
//! one way must be caught, and so must outputs that break demand 3.

mod crowded;
mod distances;
mod gauss;
mod gradients;
mod linked;

use crate::calls::{self, Outcome};
use crate::cases::{self, Settings};
use crate::checks;
use crate::compare::{self, expected, Fault};
use crate::damage;
use crate::entry::{Entry, Part};
use crate::exact;
use crate::lent::{Lent, SliceMut, Slices};
use crate::linked::{pairs, Link};
use crate::port::{Answer, Call, Port};
use crate::random::Random;

/// One way to be wrong: changes the answer or the outputs of a right call.
struct Sham {
    name: &'static str,
    entry: Entry,
    fault: Fault,
}

/// Gives whether the faithful port agrees and every sham is caught.
pub fn run(settings: &Settings) -> bool {
    let entries = Entry::ALL.map(|entry| (entry, faithful(entry)));
    let port = Port {
        sqrt: Some(f64::sqrt),
        entries: entries.into(),
    };
    let mut all_right = compare::run(&port, settings);
    let small = Settings {
        large: false,
        ..*settings
    };
    let second = Port {
        sqrt: None,
        entries: Entry::of_gauss()
            .map(|entry| (entry, gauss::rewritten(entry)))
            .collect(),
    };
    let differ = compare::differing(&second, &small);
    println!("the gradients of Gauss written a second time: {differ} differ");
    all_right &= differ == 0;
    let second = Port {
        sqrt: None,
        entries: vec![(Entry::Step, linked::rewritten())],
    };
    let differ = compare::differing(&second, &small);
    println!("the step's linked faces written a second time: {differ} differ");
    all_right &= differ == 0;
    let shams = SHAMS.iter().chain(crowded::SHAMS);
    let shams = shams.chain(distances::SHAMS).chain(gradients::SHAMS);
    let shams: Vec<&Sham> = shams.chain(linked::SHAMS).collect();
    let faults: Vec<_> = shams.iter().map(|sham| (sham.entry, sham.fault)).collect();
    for (sham, differ) in shams.iter().zip(compare::differing_by(&faults, &small)) {
        println!(
            "sham, {}, {}: {differ} differ",
            sham.entry.name(),
            sham.name
        );
        all_right &= differ > 0;
    }
    let port = Port {
        sqrt: Some(truncated_root),
        entries: Vec::new(),
    };
    let differ = compare::differing(&port, &small);
    println!("sham, subnormals not brought to full width: {differ} differ");
    all_right &= differ > 0;
    all_right & breaches_are_caught(settings)
}

/// One way to break demand 3 in the outputs of an accepted call; gives whether they let it.
struct Breach {
    name: &'static str,
    entry: Entry,
    breach: fn(&Lent, &mut Slices) -> bool,
    /// What the claim that finds it says.
    says: &'static str,
}

/// Whether the exact arithmetic finds every breach of demand 3 in the Rust's outputs.
fn breaches_are_caught(settings: &Settings) -> bool {
    let mut counts = vec![(0, 0); BREACHES.len()];
    let mut random = Random::new(settings.seed);
    cases::each(&mut random, settings, &mut |random, case, visit| {
        for (breach, (tried, caught)) in BREACHES.iter().zip(&mut counts) {
            let good = case.lent_to(random, breach.entry);
            let mut copies = compare::linking(random, breach.entry, &good, visit);
            copies.push(Vec::new());
            for damages in copies {
                let mut lent = good.clone();
                let mut outputs = compare::patterned(breach.entry, &good);
                damage::apply(breach.entry, &damages, &mut lent, &mut outputs);
                let outcome = expected(breach.entry, &lent, &outputs);
                let Outcome::Accepted(mut outputs) = outcome else {
                    continue;
                };
                if (breach.breach)(&lent, &mut outputs) {
                    *tried += 1;
                    let claims = exact::claims(breach.entry, &lent, &outputs);
                    let is_caught = claims.is_some_and(|claims| {
                        claims.is_err_and(|failure| failure.contains(breach.says))
                    });
                    *caught += u64::from(is_caught);
                }
            }
        }
    });
    for (breach, (tried, caught)) in BREACHES.iter().zip(&counts) {
        println!("demand 3, {}: {caught} of {tried} caught", breach.name);
    }
    counts
        .iter()
        .all(|&(tried, caught)| tried > 0 && tried == caught)
}

/// Moves a number to the next one in bits.
fn nudge(x: &mut f64) {
    *x = f64::from_bits(x.to_bits() ^ 1);
}

/// The flux of a face that should have kept it, one bit off.
const fn not_kept(name: &'static str, entry: Entry) -> Breach {
    Breach {
        name,
        entry,
        breach: |lent, outputs| {
            let kept = (0..lent.counts.faces).find(|&face| exact::is_kept(lent, face));
            kept.map(|face| nudge(&mut corrected(outputs)[face]))
                .is_some()
        },
        says: "does not keep its flux",
    }
}

/// The two predicted fluxes of a linked pair, the lower's first, changed where they let it.
macro_rules! not_negated {
    ($name:literal, $change:expr) => {
        Breach {
            name: $name,
            entry: Entry::Step,
            breach: |lent, outputs| {
                let change: fn([f64; 2]) -> Option<[f64; 2]> = $change;
                pairs(lent).any(|Link { face, peer }| {
                    let fluxes = [face, peer].map(|face| outputs.predicted[face]);
                    let changed = change(fluxes);
                    if let Some([lower, higher]) = changed {
                        outputs.predicted[face] = lower;
                        outputs.predicted[peer] = higher;
                    }
                    changed.is_some()
                })
            },
            says: "do not leave prediction exactly opposite",
        }
    };
}

const BREACHES: &[Breach] = &[
    Breach {
        name: "an outflow that is not finite",
        entry: Entry::Step,
        breach: |_, outputs| {
            outputs.outflow[0] = f64::NAN;
            true
        },
        says: "is not finite",
    },
    Breach {
        name: "an outflow past its bound",
        entry: Entry::Step,
        breach: |lent, outputs| {
            let last = lent.counts.cells - 1;
            let fluxes = outputs.flux.iter().map(|flux| flux.abs());
            outputs.outflow[last] += fluxes.fold(f64::from_bits(1), f64::max);
            true
        },
        says: "out of its bound",
    },
    not_kept(
        "a flux that is not kept",
        Entry::CorrectFaceFluxWithBoundary,
    ),
    not_kept(
        "a flux that is not kept in one slice",
        Entry::CorrectFaceFluxInPlace,
    ),
    Breach {
        name: "a linked pair that is not opposite",
        entry: Entry::CorrectFaceFluxWithBoundary,
        breach: |lent, outputs| {
            let mut faces = 0..lent.counts.faces;
            let pair = faces.find(|&face| exact::opposite_peer(lent, face).is_some());
            pair.map(|face| nudge(&mut outputs.flux[face])).is_some()
        },
        says: "are not opposite",
    },
    Breach {
        name: "a linked pair of a step that is not opposite, its wall fluxes neither",
        entry: Entry::Step,
        breach: |lent, outputs| {
            let walls = &lent.slices.walls;
            let mut faces = 0..lent.counts.faces;
            let pair = faces.find(|&face| {
                let peer = exact::equal_peer(lent, &outputs.coefficients, face);
                peer.is_some_and(|peer| walls[face] != -walls[peer])
            });
            pair.map(|face| nudge(&mut outputs.flux[face])).is_some()
        },
        says: "are not opposite",
    },
    not_negated!(
        "a linked pair predicted one bit off",
        |[lower, mut higher]| {
            nudge(&mut higher);
            Some([lower, higher])
        }
    ),
    not_negated!(
        "a linked pair predicted with one flux for both",
        |[lower, _]| Some([lower; 2])
    ),
    not_negated!(
        "a linked pair predicted with a zero of the same sign",
        |[lower, higher]| (lower == 0.0).then_some([lower, -higher])
    ),
    not_negated!(
        "a linked pair predicted with a NaN and its negation",
        |_| { Some([f64::NAN, -f64::NAN]) }
    ),
];

/// The root of a subnormal number from its leading 26 bits only.
fn truncated_root(x: f64) -> f64 {
    if x.is_subnormal() && x > 0.0 {
        f64::from_bits(x.to_bits() >> 26 << 26).sqrt()
    } else {
        x.sqrt()
    }
}

fn faithful(entry: Entry) -> Call {
    Box::new(move |lent, outputs| {
        let outcome = expected(entry, lent, outputs);
        *outputs = outcome.contents(entry, outputs);
        outcome.answer()
    })
}

/// The highest face with a bad link named, and not the lowest.
const fn highest_bad_link(entry: Entry) -> Sham {
    Sham {
        name: "the highest bad link",
        entry,
        fault: |lent, _, _, answer| match answer {
            Answer::Refused(6, lowest) => {
                let highest = checks::bad_links(lent).last().copied();
                Answer::Refused(6, highest.unwrap_or(lowest))
            }
            answer => answer,
        },
    }
}

/// The corrected fluxes, in one slice or in a second.
fn corrected(outputs: &mut Slices) -> &mut Vec<f64> {
    match outputs.flux.is_empty() {
        true => &mut outputs.predicted,
        false => &mut outputs.flux,
    }
}

/// A kept NaN without its payload.
const fn without_payload(entry: Entry) -> Sham {
    Sham {
        name: "a kept NaN without its payload",
        entry,
        fault: |_, _, outputs, answer| {
            if answer == Answer::Accepted {
                let fluxes = corrected(outputs).iter_mut();
                fluxes
                    .filter(|flux| flux.is_nan())
                    .for_each(|flux| *flux = f64::NAN);
            }
            answer
        },
    }
}

const SHAMS: &[Sham] = &[
    highest_bad_link(Entry::LeastSquaresStencil),
    highest_bad_link(Entry::PressureFaceCoefficientsWithBoundary),
    highest_bad_link(Entry::CorrectFaceFluxWithBoundary),
    highest_bad_link(Entry::Step),
    highest_bad_link(Entry::CorrectFaceFluxInPlace),
    Sham {
        name: "the predicted field handed on",
        entry: Entry::CorrectFaceFluxWithBoundary,
        fault: |lent, _, outputs, answer| {
            if answer == Answer::Accepted {
                outputs.flux.clone_from(&lent.slices.predicted);
            }
            answer
        },
    },
    Sham {
        name: "fluxes all zero",
        entry: Entry::Step,
        fault: |_, _, outputs, answer| {
            outputs.flux.fill(0.0);
            answer
        },
    },
    Sham {
        name: "the first flux copied to all",
        entry: Entry::CorrectFaceFluxWithBoundary,
        fault: |_, _, outputs, answer| {
            if answer == Answer::Accepted && !outputs.flux.is_empty() {
                let first = outputs.flux[0];
                outputs.flux.fill(first);
            }
            answer
        },
    },
    Sham {
        name: "the predicted field left as it was",
        entry: Entry::CorrectFaceFluxInPlace,
        fault: |_, before, outputs, answer| {
            if answer == Answer::Accepted {
                outputs.clone_from(before);
            }
            answer
        },
    },
    Sham {
        name: "the last face not corrected",
        entry: Entry::CorrectFaceFluxInPlace,
        fault: |_, before, outputs, answer| {
            if answer == Answer::Accepted && !outputs.predicted.is_empty() {
                let last = outputs.predicted.len() - 1;
                outputs.predicted[last] = before.predicted[last];
            }
            answer
        },
    },
    Sham {
        name: "the predicted field left where arithmetic refuses",
        entry: Entry::CorrectFaceFluxInPlace,
        fault: |_, before, outputs, answer| {
            if let Answer::Refused(9 | 10, _) = answer {
                outputs.clone_from(before);
            }
            answer
        },
    },
    Sham {
        name: "the faces behind the refused one left as they were",
        entry: Entry::CorrectFaceFluxInPlace,
        fault: |_, before, outputs, answer| {
            if let Answer::Refused(9 | 10, face) = answer {
                outputs.predicted[face..].copy_from_slice(&before.predicted[face..]);
            }
            answer
        },
    },
    Sham {
        name: "the predicted field cleared by a check",
        entry: Entry::CorrectFaceFluxInPlace,
        fault: |_, _, outputs, answer| {
            if let Answer::Refused(1..=6 | 14 | 20, _) = answer {
                outputs.predicted.fill(0.0);
            }
            answer
        },
    },
    Sham {
        name: "corrected twice",
        entry: Entry::CorrectFaceFluxInPlace,
        fault: |lent, _, outputs, answer| {
            let mut again = lent.clone();
            again.slices.predicted.clone_from(&outputs.predicted);
            if answer == Answer::Accepted {
                let twice = calls::run(Entry::CorrectFaceFluxInPlace, &again);
                *outputs = twice.contents(Entry::CorrectFaceFluxInPlace, outputs);
            }
            answer
        },
    },
    Sham {
        name: "outputs untouched",
        entry: Entry::IntegratedDivergence,
        fault: |_, before, outputs, answer| {
            outputs.clone_from(before);
            answer
        },
    },
    Sham {
        name: "a half-built field left after a refusal",
        entry: Entry::PressureFaceCoefficientsWithBoundary,
        fault: |_, _, outputs, answer| {
            if let Answer::Refused(9, face) = answer {
                outputs.coefficients[..face].fill(1.0);
            }
            answer
        },
    },
    Sham {
        name: "outputs cleared before the checks",
        entry: Entry::RhieChowPredictedFlux,
        fault: |_, _, outputs, answer| {
            if let Answer::Refused(1..=6 | 14 | 20, _) = answer {
                for part in Entry::RhieChowPredictedFlux.outputs() {
                    if let SliceMut::Float(numbers) = outputs.slice_mut(*part) {
                        numbers.fill(0.0);
                    }
                }
            }
            answer
        },
    },
    Sham {
        name: "a largest divergence not taken from the outflows",
        entry: Entry::ContinuityMetrics,
        fault: |_, _, outputs, answer| {
            if answer == Answer::Accepted {
                outputs.metrics[1] = outputs.metrics[0];
            }
            answer
        },
    },
    Sham {
        name: "a broken chain before a record is walked",
        entry: Entry::LeastSquaresGradient,
        fault: |_, before, outputs, answer| match answer {
            Answer::Accepted => {
                outputs.clone_from(before);
                Answer::Refused(5, 0)
            }
            answer => answer,
        },
    },
    Sham {
        name: "every mesh refused",
        entry: Entry::Step,
        fault: |_, before, outputs, _| {
            outputs.clone_from(before);
            Answer::Refused(1, 0)
        },
    },
    Sham {
        name: "not the lowest cell",
        entry: Entry::LeastSquaresStencil,
        fault: |lent, _, _, answer| match answer {
            Answer::Refused(5, _) => Answer::Refused(5, lent.counts.cells - 1),
            answer => answer,
        },
    },
    without_payload(Entry::CorrectFaceFluxWithBoundary),
    without_payload(Entry::CorrectFaceFluxInPlace),
    Sham {
        name: "a zero without its sign",
        entry: Entry::IntegratedDivergence,
        fault: |_, _, outputs, answer| {
            if answer == Answer::Accepted {
                for outflow in outputs.outflow.iter_mut().filter(|x| **x == 0.0) {
                    *outflow = -*outflow;
                }
            }
            answer
        },
    },
    Sham {
        name: "arithmetic before the mesh numbers",
        entry: Entry::RhieChowPredictedFlux,
        fault: |lent, before, outputs, answer| {
            let entry = Entry::RhieChowPredictedFlux;
            let mut same = lent.clone();
            same.renumber(lent.counts.mesh);
            if answer != Answer::Refused(3, 0) || checks::check(entry, &same, before).is_some() {
                return answer;
            }
            let outcome = calls::run(entry, lent);
            *outputs = outcome.contents(entry, before);
            outcome.answer()
        },
    },
    Sham {
        name: "unused records not cleared",
        entry: Entry::LeastSquaresStencil,
        fault: |_, before, outputs, answer| {
            if answer == Answer::Accepted {
                let used: usize = outputs
                    .starts
                    .iter()
                    .map(|&start| Lent::chain(&outputs.equations, start).len())
                    .sum();
                outputs.equations[2 * used..].copy_from_slice(&before.equations[2 * used..]);
            }
            answer
        },
    },
    Sham {
        name: "one bit of one number",
        entry: Entry::Step,
        fault: |_, _, outputs, answer| {
            if answer == Answer::Accepted {
                if let SliceMut::Float(numbers) = outputs.slice_mut(Part::Gradient) {
                    let last = numbers.len() - 1;
                    numbers[last] = f64::from_bits(numbers[last].to_bits() ^ 1);
                }
            }
            answer
        },
    },
];
