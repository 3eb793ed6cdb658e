//! Every call of the Rust over every maker, and what the checks before it refuse, without the port: what
//! `oracle/coverage` measures.

use crate::calls::{self, Outcome};
use crate::cases::{self, Case, Settings, Visit};
use crate::checks::{self, LIMIT};
use crate::compare::{damages, expected, forging, linking, patterned, spoiling};
use crate::damage;
use crate::entry::{Entry, Part};
use crate::lent::Lent;
use crate::random::Random;
use std::collections::BTreeMap;

/// Answers by entry: the number of a refusal, 0 where accepted.
type Answers = BTreeMap<(&'static str, u64), u64>;

/// Runs the calls and prints how often each answer was given.
pub fn run(settings: &Settings) {
    let mut answers = Answers::new();
    let mut random = Random::new(settings.seed);
    cases::each(&mut random, settings, &mut |random, case, visit| {
        for entry in Entry::of_document_01() {
            visit_entry(random, case, entry, visit, settings, &mut answers);
        }
        let mut apart = random.apart();
        for entry in Entry::of_gauss() {
            visit_entry(&mut apart, case, entry, visit, settings, &mut answers);
        }
        other_predictions(case);
        assert!(calls::others(&case.lent), "{}", case.name);
    });
    for ((entry, number), count) in answers {
        println!("{entry} {number}: {count}");
    }
}

fn visit_entry(
    random: &mut Random,
    case: &Case,
    entry: Entry,
    visit: Visit,
    settings: &Settings,
    answers: &mut Answers,
) {
    let mut good = case.lent_to(random, entry);
    if settings.built && entry.outputs().contains(&Part::Starts) {
        // records for every equation, so that no other mesh is built to count them
        good.records = LIMIT;
    }
    whole_and_damaged(random, &good, entry, visit, answers);
    with_other_numbers(&good, entry);
}

fn whole_and_damaged(
    random: &mut Random,
    good: &Lent,
    entry: Entry,
    visit: Visit,
    answers: &mut Answers,
) {
    let outputs = patterned(entry, good);
    let tries = damages(random, entry, good, visit).into_iter();
    let mut tries: Vec<_> = tries.map(damage::refilled).collect();
    tries.extend(spoiling(random, entry, good, visit));
    tries.extend(forging(random, entry, good, visit));
    tries.extend(linking(&mut random.apart(), entry, good, visit));
    tries.push(Vec::new());
    for damages in tries {
        let mut lent = good.clone();
        let mut outputs = outputs.clone();
        damage::apply(entry, &damages, &mut lent, &mut outputs);
        let number = number(&expected(entry, &lent, &outputs));
        *answers.entry((entry.name(), number)).or_default() += 1;
    }
}

/// The Rust's own answer where one mesh number differs: 3, or what it tests before that; of the coupling's gradients it
/// tests none.
fn with_other_numbers(good: &Lent, entry: Entry) {
    if checks::check(entry, good, &patterned(entry, good)).is_some() {
        return;
    }
    let may_be_given: &[u64] = match entry {
        Entry::RhieChowPredictedFlux => &[3, 7, 9],
        Entry::Step => &[1, 3, 7, 8, 9, 10],
        Entry::GaussGradientFromFaces => &[3, 12],
        Entry::PressureCouplingGradient | Entry::PressureCouplingGradientWithoutConditions => {
            &[0, 12]
        }
        _ => &[3],
    };
    for &part in entry.inputs().iter().filter(|part| part.is_numbered()) {
        let mut lent = good.clone();
        lent.set_number(part, !lent.counts.mesh);
        let number = number(&calls::run(entry, &lent));
        assert!(
            may_be_given.contains(&number),
            "{} gives {number} for {} of another mesh",
            entry.name(),
            part.name()
        );
    }
}

/// The number of a refusal, 0 where it is accepted.
fn number(outcome: &Outcome) -> u64 {
    match outcome {
        Outcome::Accepted(_) => 0,
        Outcome::Refused(refusal) => refusal.number,
    }
}

/// The prediction with a coupling's gradient in the place of the stencil's, without links and with: the step has it with
/// the stencil's alone.
fn other_predictions(case: &Case) {
    use flursys::simple::access::{pressure_coupling_gradient, rhie_chow_flux_with_coefficients};
    let mesh = case.lent.mesh();
    let conditions = case.lent.conditions();
    let pressure = case.lent.cell_numbers(Part::Pressure);
    for boundary in [None, Some(&conditions)] {
        let gradient = pressure_coupling_gradient(&mesh, &pressure, boundary);
        let _ = rhie_chow_flux_with_coefficients(
            &mesh,
            &case.lent.cell_vectors(Part::Velocity),
            &pressure,
            &case.lent.cell_numbers(Part::Responses),
            &case.lent.stencil(),
            &case.lent.face_numbers(Part::Walls),
            &case.lent.face_numbers(Part::Coefficients),
            gradient.as_ref().ok(),
            boundary,
        );
    }
}
