//! The comparison of the port with the Rust: answers, every bit of the outputs, and what was not written,
//! on good input and on damaged copies of it. Where they differ, the smallest case is printed in full.

mod crowds;
mod distances;
mod gradients;
mod linked;

use crate::calls::{self, is_copied, Outcome, Refusal};
use crate::cases::{self, Case, Settings, Visit};
use crate::checks;
use crate::damage::{self, Damage};
use crate::entry::{Entry, Part};
use crate::exact;
use crate::lent::{Lent, Slice, Slices};
use crate::makers;
use crate::port::{Answer, Call, Port};
use crate::random::Random;
use crowds::Crowds;
use distances::Distances;
use gradients::Gradients;
use linked::Links;
use std::fmt::Write;

/// What every output holds before a call.
pub const PATTERN: u64 = 0xa5a5_a5a5_a5a5_a5a5;

/// Roots that are compared for each case.
const ROOTS_PER_CASE: usize = 2_000;

/// A case in which port and Rust differ.
struct Difference {
    cells: usize,
    faces: usize,
    text: String,
}

#[derive(Default)]
struct Tally {
    compared: u64,
    differ: u64,
    /// Whether what follows is counted too.
    is_counted: bool,
    /// Compared calls that are accepted, refused before arithmetic, refused within it.
    kinds: [u64; 3],
    /// Compared calls on input that no mesh of the Rust gives and that no check refuses.
    beyond: u64,
    /// Compared calls that 6 refuses, and those of them with several bad links.
    bad_links: [u64; 2],
    crowds: Crowds,
    distances: Distances,
    gradients: Gradients,
    links: Links,
    smallest: Option<Difference>,
    claims: Claims,
}

impl Tally {
    fn counted() -> Self {
        Self {
            is_counted: true,
            ..Self::default()
        }
    }

    fn count(
        &mut self,
        entry: Entry,
        lent: &Lent,
        outputs: &Slices,
        expected: &Outcome,
        built: bool,
    ) {
        let kind = match expected {
            Outcome::Accepted(_) => 0,
            Outcome::Refused(refusal) if refusal.place != calls::Place::Arithmetic => 1,
            Outcome::Refused(_) => 2,
        };
        self.kinds[kind] += 1;
        if matches!(expected, Outcome::Refused(refusal) if refusal.number == 6) {
            self.bad_links[0] += 1;
            self.bad_links[1] += u64::from(checks::bad_links(lent).len() > 1);
        }
        self.crowds.count(entry, lent, expected);
        self.distances.count(entry, lent, expected);
        self.gradients.count(entry, lent, outputs, expected);
        self.links.count(entry, lent, expected);
        self.beyond += u64::from(!built && kind != 1);
    }
}

/// Accepted calls that are held to demand 3 in exact arithmetic.
#[derive(Default)]
struct Claims {
    met: u64,
    kept_faces: u64,
    opposite_pairs: u64,
    predicted_pairs: u64,
    failed: Vec<String>,
}

impl Claims {
    fn check(&mut self, tried: &Try, entry: Entry, outputs: &Slices) {
        match exact::claims(entry, tried.lent, outputs) {
            Some(Ok(claimed)) => {
                self.met += 1;
                self.kept_faces += claimed.kept;
                self.opposite_pairs += claimed.opposite;
                self.predicted_pairs += claimed.predicted;
            }
            Some(Err(failure)) => {
                let failure = format!("{failure}: {} on {}", entry.name(), tried.name());
                self.failed.push(failure);
            }
            None => {}
        }
    }

    fn print(&self, whose: &str, entry: Entry) {
        let opposite = self.opposite_pairs;
        let pairs = match entry {
            Entry::Step => format!(
                "{} linked pairs leave prediction exactly opposite, {opposite} with equal coefficients the correction",
                self.predicted_pairs
            ),
            _ => format!("{opposite} linked pairs stay opposite"),
        };
        println!(
            "{whose}: {} accepted calls meet demand 3 in exact arithmetic ({} faces keep their flux, {pairs}), {} fail",
            self.met,
            self.kept_faces,
            self.failed.len()
        );
        print_failures(&self.failed);
    }
}

/// What is checked on the Rust alone.
#[derive(Default)]
struct Alone {
    steps_as_parts: u64,
    failed: Vec<String>,
    /// Of the functions that demand 3 speaks of.
    claims: [Claims; exact::CLAIMED_OF_RUST.len()],
}

/// Compares, prints the counts, and gives whether all agreed.
pub fn run(port: &Port, settings: &Settings) -> bool {
    let mut random = Random::new(settings.seed);
    let mut total = 0;
    let mut differ = 0;
    match port.sqrt {
        Some(sqrt) => {
            let roots = roots(&mut random, sqrt, settings.cases * ROOTS_PER_CASE);
            println!("sqrt: {} compared, {} differ", roots.compared, roots.differ);
            if let Some((x, found)) = roots.first {
                let [x, found, right] = [x, found, x.sqrt()].map(f64::to_bits);
                println!("the root of {x:016x} should be {right:016x} and is {found:016x}");
            }
            total += roots.compared;
            differ += roots.differ;
        }
        None => println!("sqrt: the port is not linked"),
    }
    let mut alone = Alone::default();
    let tallies = tallies(
        port,
        &mut random,
        settings,
        &Tally::counted,
        &mut |random, case| {
            check_alone(random, case, &mut alone);
        },
    );
    for (entry, tally) in Entry::ALL.into_iter().zip(&tallies) {
        print_tally(entry, port.call(entry).is_some(), tally);
        total += tally.compared;
        differ += tally.differ;
    }
    print_alone(&alone);
    let smallest = tallies
        .iter()
        .filter_map(|tally| tally.smallest.as_ref())
        .min_by_key(|difference| (difference.cells, difference.faces));
    if let Some(difference) = smallest {
        println!("\nthe smallest case that differs:\n{}", difference.text);
    }
    if port.sqrt.is_none() && port.entries.is_empty() {
        println!("oracle: nothing compared, the port is not linked");
    } else {
        println!("{total} compared, {differ} differ");
    }
    let claims = tallies.iter().map(|tally| &tally.claims);
    let all_met = claims
        .chain(&alone.claims)
        .all(|claims| claims.failed.is_empty());
    differ == 0 && alone.failed.is_empty() && all_met
}

/// Compares entries on what is lent, each with outputs of the right lengths, and prints a line; gives how
/// many were compared, and whether they agreed and demand 3 held of the accepted ones.
#[cfg(feature = "sheets")]
pub fn on(port: &Port, name: &str, entries: &[Entry], lent: &Lent) -> (u64, bool) {
    let mut tally = Tally::counted();
    for &entry in entries {
        if let Some(call) = port.call(entry) {
            let tried = Try {
                case: name,
                damages: None,
                lent,
                outputs: &patterned(entry, lent),
            };
            compare_call(&tried, entry, call, &mut tally);
        }
    }
    let [accepted, before, within] = tally.kinds;
    println!(
        "{name}: {} calls compared ({accepted} accepted, {} refused), {} differ; {} meet demand 3, {} fail",
        tally.compared,
        before + within,
        tally.differ,
        tally.claims.met,
        tally.claims.failed.len()
    );
    print_failures(&tally.claims.failed);
    if let Some(difference) = &tally.smallest {
        println!("{}", difference.text);
    }
    let agreed = tally.differ == 0 && tally.claims.failed.is_empty();
    (tally.compared, agreed)
}

/// How many calls differ, without a word.
pub fn differing(port: &Port, settings: &Settings) -> u64 {
    let mut random = Random::new(settings.seed);
    let wrong_roots = match port.sqrt {
        Some(sqrt) => roots(&mut random, sqrt, settings.cases * ROOTS_PER_CASE).differ,
        None => 0,
    };
    let tallies = tallies(port, &mut random, settings, &Tally::default, &mut |_, _| {});
    wrong_roots + tallies.iter().map(|tally| tally.differ).sum::<u64>()
}

/// Compares every entry of the port on every case.
fn tallies(
    port: &Port,
    random: &mut Random,
    settings: &Settings,
    tally: &dyn Fn() -> Tally,
    look: &mut dyn FnMut(&mut Random, &Case),
) -> Vec<Tally> {
    let mut tallies: Vec<Tally> = Entry::ALL.iter().map(|_| tally()).collect();
    let has = |entry| port.call(entry).is_some();
    each_try(random, settings, &has, look, &mut |entry, tried| {
        let call = port.call(entry).expect("an entry that it has");
        compare_call(tried, entry, call, &mut tallies[entry as usize]);
    });
    tallies
}

/// A change of what is right to answer and to hand out; it is given the outputs as they were before the call.
pub type Fault = fn(&Lent, &Slices, &mut Slices, Answer) -> Answer;

/// How many calls differ by each of these faults.
pub fn differing_by(faults: &[(Entry, Fault)], settings: &Settings) -> Vec<u64> {
    let mut differ = vec![0; faults.len()];
    let mut random = Random::new(settings.seed);
    let has = |entry| faults.iter().any(|(of, _)| *of == entry);
    each_try(
        &mut random,
        settings,
        &has,
        &mut |_, _| {},
        &mut |entry, tried| {
            let Try { lent, outputs, .. } = *tried;
            let expected = expected(entry, lent, outputs);
            let wanted = expected.contents(entry, outputs);
            let faults = faults.iter().zip(&mut differ);
            for ((_, fault), differ) in faults.filter(|((of, _), _)| *of == entry) {
                let mut written = wanted.clone();
                let answer = fault(lent, outputs, &mut written, expected.answer());
                let found = difference(entry, lent, &expected, &wanted, answer, &written);
                *differ += u64::from(found.is_some());
            }
        },
    );
    differ
}

/// What is lent to a call: a case as it is, or with damages; and what the outputs hold before.
struct Try<'a> {
    case: &'a str,
    damages: Option<&'a [Damage]>,
    lent: &'a Lent,
    outputs: &'a Slices,
}

impl Try<'_> {
    fn name(&self) -> String {
        match self.damages {
            None => self.case.to_string(),
            Some(damages) => format!("{}, damaged: {damages:?}", self.case),
        }
    }
}

/// Shows every call of some entries on every case.
fn each_try(
    random: &mut Random,
    settings: &Settings,
    is_tried: &dyn Fn(Entry) -> bool,
    look: &mut dyn FnMut(&mut Random, &Case),
    show: &mut dyn FnMut(Entry, &Try),
) {
    cases::each(random, settings, &mut |random, case, visit| {
        look(random, case);
        // a sequence for each entry, so that one more or one fewer leaves the cases of the others as they are
        let seed = random.next();
        for entry in Entry::ALL.into_iter().filter(|&entry| is_tried(entry)) {
            let mut random = Random::new(seed.wrapping_add(entry as u64));
            try_case(&mut random, case, entry, visit, &mut |tried| {
                show(entry, tried);
            });
        }
    });
}

fn print_failures(failures: &[String]) {
    for failure in failures.iter().take(5) {
        println!("{failure}");
    }
}

fn print_alone(alone: &Alone) {
    println!(
        "the Rust alone: {} steps equal their parts, {} fail",
        alone.steps_as_parts,
        alone.failed.len()
    );
    print_failures(&alone.failed);
    for (entry, claims) in exact::CLAIMED_OF_RUST.iter().zip(&alone.claims) {
        claims.print(&format!("the Rust alone, {}", entry.name()), *entry);
    }
}

fn print_tally(entry: Entry, is_linked: bool, tally: &Tally) {
    if !is_linked {
        println!("{}: not in the port", entry.name());
        return;
    }
    let [accepted, before, within] = tally.kinds;
    println!(
        "{}: {} compared ({accepted} accepted, {before} refused before arithmetic, {within} within it; \
         {} beyond what the Rust builds), {} differ",
        entry.name(),
        tally.compared,
        tally.beyond,
        tally.differ
    );
    if entry.lends(Part::Codes) {
        let [refused, several] = tally.bad_links;
        println!(
            "{}: {refused} of them refused by 6, {several} with several bad links",
            entry.name()
        );
    }
    if entry.lends(Part::Adjacency) {
        tally.crowds.print(entry);
    }
    if entry.lends(Part::Geometry) {
        tally.distances.print(entry);
    }
    if entry.is_gauss() {
        tally.gradients.print(entry);
    }
    if entry == Entry::Step {
        tally.links.print(entry);
    }
    if exact::is_claimed(entry) {
        tally.claims.print(entry.name(), entry);
    }
}

/// One entry on one case, whole and damaged.
fn try_case(
    random: &mut Random,
    case: &Case,
    entry: Entry,
    visit: Visit,
    show: &mut dyn FnMut(&Try),
) {
    let lent = case.lent_to(random, entry);
    let outputs = patterned(entry, &lent);
    show(&Try {
        case: &case.name,
        damages: None,
        lent: &lent,
        outputs: &outputs,
    });
    let mut tries = damages(random, entry, &lent, visit);
    tries.extend(crowding(random, entry, &lent, visit));
    if entry.checks_distances() {
        // in the others, which change what the distances are, these stay as they were
        let refill = |damages| match random.chance(3, 4) {
            true => damage::refilled(damages),
            false => damages,
        };
        tries = tries.into_iter().map(refill).collect();
    }
    tries.extend(spoiling(random, entry, &lent, visit));
    tries.extend(forging(random, entry, &lent, visit));
    // from a sequence of their own, so that what comes before and after is as it is without them
    tries.extend(linking(&mut random.apart(), entry, &lent, visit));
    for damages in tries {
        let mut lent = lent.clone();
        let mut outputs = outputs.clone();
        damage::apply(entry, &damages, &mut lent, &mut outputs);
        show(&Try {
            case: &case.name,
            damages: Some(&damages),
            lent: &lent,
            outputs: &outputs,
        });
    }
}

/// Damages to try, one or several at a time.
pub fn damages(random: &mut Random, entry: Entry, lent: &Lent, visit: Visit) -> Vec<Vec<Damage>> {
    let shape = damage::of_shape(entry, lent);
    let (of_mesh, harmless, several) = match visit {
        Visit::Thorough => (24, 4, 12),
        Visit::Usual => (4, 1, 2),
        Visit::Passing => return Vec::new(),
    };
    let mut tries: Vec<Vec<Damage>> = match visit {
        Visit::Thorough => shape.iter().map(|&damage| vec![damage]).collect(),
        _ => vec![vec![random.pick(&shape)], vec![random.pick(&shape)]],
    };
    for _ in 0..of_mesh {
        tries.extend(damage::of_mesh(random, entry, lent).map(|damage| vec![damage]));
    }
    for _ in 0..harmless {
        tries.extend(damage::of_floats(random, entry, lent).map(|damage| vec![damage]));
        tries.extend(damage::of_layout(random, entry).map(|damage| vec![damage]));
    }
    for _ in 0..several {
        let mut many = Vec::new();
        if random.chance(1, 3) {
            many.push(random.pick(&shape));
        }
        for _ in 0..random.between(2, 3) {
            many.extend(damage::of_mesh(random, entry, lent));
        }
        tries.push(many);
        tries.extend(damage::of_links(random, entry, lent));
    }
    tries
}

/// Damages that give a cell about as many faces as 14 allows. They come after those that the fixed list is made from
/// too.
fn crowding(random: &mut Random, entry: Entry, lent: &Lent, visit: Visit) -> Vec<Vec<Damage>> {
    let count = match visit {
        Visit::Thorough => 10,
        Visit::Usual => 2,
        Visit::Passing => 0,
    };
    (0..count)
        .filter_map(|_| damage::of_crowd(random, entry, lent))
        .collect()
}

/// Damages to distances, and centres of every kind.
pub fn spoiling(random: &mut Random, entry: Entry, lent: &Lent, visit: Visit) -> Vec<Vec<Damage>> {
    let count = match visit {
        Visit::Thorough => 16,
        Visit::Usual => 3,
        Visit::Passing => 0,
    };
    (0..count)
        .filter_map(|_| damage::of_distances(random, entry, lent))
        .collect()
}

/// Damages to what the gradients of Gauss read.
pub fn forging(random: &mut Random, entry: Entry, lent: &Lent, visit: Visit) -> Vec<Vec<Damage>> {
    let count = match visit {
        Visit::Thorough => 16,
        Visit::Usual => 6,
        Visit::Passing => 0,
    };
    (0..count)
        .filter_map(|_| damage::of_gradients(random, entry, lent))
        .collect()
}

/// Damages to what the prediction of linked faces reads.
pub fn linking(random: &mut Random, entry: Entry, lent: &Lent, visit: Visit) -> Vec<Vec<Damage>> {
    let count = match visit {
        Visit::Thorough => 24,
        Visit::Usual => 6,
        Visit::Passing => 0,
    };
    (0..count)
        .filter_map(|_| damage::of_linked(random, entry, lent))
        .collect()
}

/// Outputs of the right lengths, filled with the pattern; one that is read too is as it is lent.
pub fn patterned(entry: Entry, lent: &Lent) -> Slices {
    let mut outputs = Slices::default();
    for &part in entry.outputs() {
        if entry.lends(part) {
            outputs.take(part, &lent.slices);
            continue;
        }
        let length = lent.due(part).expect("good input");
        let mut slice = outputs.slice_mut(part);
        slice.resize(length, PATTERN as usize, f64::from_bits(PATTERN));
    }
    outputs
}

/// What the port is to answer: the checks of docs/REFUSALS.md, then the Rust.
pub fn expected(entry: Entry, lent: &Lent, outputs: &Slices) -> Outcome {
    match checks::check(entry, lent, outputs) {
        Some(refusal) => Outcome::Refused(refusal),
        None => calls::run(entry, lent),
    }
}

fn compare_call(tried: &Try, entry: Entry, call: &Call, tally: &mut Tally) {
    let Try { lent, outputs, .. } = *tried;
    let expected = expected(entry, lent, outputs);
    let mut written = outputs.clone();
    let answer = call(lent, &mut written);
    tally.compared += 1;
    if tally.is_counted {
        tally.count(entry, lent, outputs, &expected, tried.damages.is_none());
    }
    let wanted = expected.contents(entry, outputs);
    let Some(difference) = difference(entry, lent, &expected, &wanted, answer, &written) else {
        if tally.is_counted && answer == Answer::Accepted {
            tally.claims.check(tried, entry, &written);
        }
        return;
    };
    tally.differ += 1;
    let size = (lent.counts.cells, lent.counts.faces);
    if tally
        .smallest
        .as_ref()
        .is_none_or(|found| size < (found.cells, found.faces))
    {
        let mut text = format!("{} on {}\n{difference}\n", entry.name(), tried.name());
        describe(&mut text, entry, lent);
        describe_outcome(&mut text, entry, &expected, &wanted, answer, &written);
        tally.smallest = Some(Difference {
            cells: size.0,
            faces: size.1,
            text,
        });
    }
}

/// What differs first, if anything.
fn difference(
    entry: Entry,
    lent: &Lent,
    expected: &Outcome,
    wanted: &Slices,
    answer: Answer,
    written: &Slices,
) -> Option<String> {
    let is_right = match (expected, answer) {
        (Outcome::Accepted(_), Answer::Accepted) => true,
        (Outcome::Refused(refusal), Answer::Refused(number, index)) => {
            (refusal.number, refusal.index) == (number, index)
        }
        _ => false,
    };
    if !is_right {
        return Some("the answers differ".to_string());
    }
    for &part in entry.outputs() {
        let place = match (wanted.slice(part), written.slice(part)) {
            (Slice::Whole(wanted), Slice::Whole(written)) => {
                first(wanted, written, |_, a, b| a == b)
            }
            (Slice::Float(wanted), Slice::Float(written)) => {
                let accepted = matches!(expected, Outcome::Accepted(_));
                first(wanted, written, |at, a, b| {
                    let copied = !accepted || is_copied(entry, part, at, lent);
                    is_same(a, b, copied)
                })
            }
            _ => unreachable!("a part has one kind of number"),
        };
        if let Some(at) = place {
            return Some(format!("{} differs first at {at}", part.name()));
        }
    }
    None
}

fn first<T: Copy>(a: &[T], b: &[T], is_same: impl Fn(usize, T, T) -> bool) -> Option<usize> {
    if a.len() != b.len() {
        return Some(a.len().min(b.len()));
    }
    (0..a.len()).find(|&at| !is_same(at, a[at], b[at]))
}

/// The same bits; or two NaNs that arithmetic made.
pub fn is_same(a: f64, b: f64, copied: bool) -> bool {
    a.to_bits() == b.to_bits() || (!copied && a.is_nan() && b.is_nan())
}

fn describe(text: &mut String, entry: Entry, lent: &Lent) {
    let _ = writeln!(text, "{:?}, equation records {}", lent.counts, lent.records);
    for &part in entry.inputs() {
        if part.is_numbered() && lent.number(part) != lent.counts.mesh {
            let _ = writeln!(
                text,
                "mesh number of {}: {}",
                part.name(),
                lent.number(part)
            );
        }
        describe_slice(text, "", part, &lent.slices);
    }
}

fn describe_outcome(
    text: &mut String,
    entry: Entry,
    expected: &Outcome,
    wanted: &Slices,
    answer: Answer,
    written: &Slices,
) {
    let _ = match expected {
        Outcome::Accepted(_) => writeln!(text, "expected: accepted"),
        Outcome::Refused(Refusal { number, index, .. }) => {
            writeln!(text, "expected: refused {number} at {index}")
        }
    };
    let _ = writeln!(text, "answered: {answer:?}");
    for &part in entry.outputs() {
        describe_slice(text, "expected ", part, wanted);
        describe_slice(text, "written ", part, written);
    }
}

fn describe_slice(text: &mut String, title: &str, part: Part, slices: &Slices) {
    let (_, width) = part.shape();
    let _ = writeln!(text, "{title}{}:", part.name());
    let line = |numbers: Vec<String>| format!("  {}\n", numbers.join(" "));
    match slices.slice(part) {
        Slice::Whole(numbers) => {
            for record in numbers.chunks(width) {
                text.push_str(&line(record.iter().map(usize::to_string).collect()));
            }
        }
        Slice::Float(numbers) => {
            for record in numbers.chunks(width) {
                let shown = |x: &f64| format!("{:016x} ({x:e})", x.to_bits());
                text.push_str(&line(record.iter().map(shown).collect()));
            }
        }
    }
}

/// Roots compared with the machine's, and with the midpoints beside them.
#[derive(Default)]
struct Roots {
    compared: u64,
    differ: u64,
    /// The first argument whose root is wrong, and that root.
    first: Option<(f64, f64)>,
}

fn roots(random: &mut Random, sqrt: fn(f64) -> f64, count: usize) -> Roots {
    let mut roots = Roots::default();
    for place in 0..count {
        let x = makers::root_argument(random, place);
        let found = sqrt(x);
        let is_nearest = !(x > 0.0 && x.is_finite()) || exact::is_nearest_root(x, found);
        roots.compared += 1;
        if !is_same(x.sqrt(), found, false) || !is_nearest {
            roots.differ += 1;
            roots.first.get_or_insert((x, found));
        }
    }
    roots
}

/// On the Rust alone: the lent form is turned into the Rust's objects and back without loss, equations are
/// counted as the Rust counts them, the step equals its parts, and accepted calls meet demand 3 where no cell has
/// too many faces for it.
fn check_alone(random: &mut Random, case: &Case, alone: &mut Alone) {
    let lent = case.lent_to(random, Entry::Step);
    if !is_same_again(&lent) || !calls::counts_agree(&lent) {
        let failure = format!("the lent form is not that of the Rust: {}", case.name);
        alone.failed.push(failure);
    }
    let whole = calls::run(Entry::Step, &lent);
    let parts = cases::step_by_parts(&lent);
    if is_same_outcome(&whole, &parts) {
        alone.steps_as_parts += 1;
    } else {
        let failure = format!("the step is not its parts: {}", case.name);
        alone.failed.push(failure);
    }
    for (entry, claims) in exact::CLAIMED_OF_RUST.into_iter().zip(&mut alone.claims) {
        if checks::is_crowded(entry, &lent) {
            continue;
        }
        if let Outcome::Accepted(outputs) = calls::run(entry, &lent) {
            let tried = Try {
                case: &case.name,
                damages: None,
                lent: &lent,
                outputs: &Slices::default(),
            };
            claims.check(&tried, entry, &outputs);
        }
    }
}

/// Whether the Rust's objects made from what is lent are lent as the same words.
fn is_same_again(lent: &Lent) -> bool {
    let again = Lent::new(&lent.mesh(), &lent.conditions());
    let mut parts = Entry::LeastSquaresStencil.inputs().iter();
    again.counts == lent.counts
        && parts.all(|&part| again.slices.slice(part).words() == lent.slices.slice(part).words())
}

fn is_same_outcome(a: &Outcome, b: &Outcome) -> bool {
    match (a, b) {
        (Outcome::Refused(a), Outcome::Refused(b)) => a == b,
        (Outcome::Accepted(a), Outcome::Accepted(b)) => Entry::Step
            .outputs()
            .iter()
            .all(|&part| a.slice(part).words() == b.slice(part).words()),
        _ => false,
    }
}
