//! Cases: a mesh with its conditions, every field, and a stencil, ready for every entry.

use crate::calls::{self, Outcome};
use crate::checks::LIMIT;
use crate::entry::{Entry, Part};
use crate::lent::{export_stencil, Lent, FACE_WIDTH, OWN};
use crate::makers::{self, Made, Style, Walls, WALLS};
use crate::random::Random;
use flursys::LeastSquaresGradientStencil;

/// How closely a case is looked at.
#[derive(Clone, Copy, Debug, PartialEq, Eq)]
pub enum Visit {
    /// Every damage to the shape, and many to the mesh.
    Thorough,
    /// Some damages.
    Usual,
    /// None.
    Passing,
}

/// Which cases are visited.
#[derive(Clone, Copy)]
pub struct Settings {
    pub seed: u64,
    /// Meshes made at random.
    pub cases: usize,
    /// The largest meshes too.
    pub large: bool,
    /// No damaged copies: only input that the Rust's own meshes give.
    pub built: bool,
}

pub struct Case {
    pub name: String,
    pub lent: Lent,
    /// How many equations the Rust's stencil has, where it builds one.
    pub equations: Option<usize>,
}

/// Is shown a case, and how closely to look at it.
pub type Visitor<'a> = dyn FnMut(&mut Random, &Case, Visit) + 'a;

/// So many meshes are made at random for one with a cell of about 26 faces.
const FOR_A_CROWDED: usize = 16;

/// Visits the meshes made by hand with every kind of conditions, then those made at random, then the
/// largest that the Rust builds within the limits, and two at the limits themselves; last, made by hand and
/// at random, those with cells of about 26 faces. What is made by hand is visited thoroughly, the largest in
/// passing. Where only what the Rust builds is asked for, all are visited in passing, and those at the limits
/// are left out.
pub fn each(random: &mut Random, settings: &Settings, visit: &mut Visitor<'_>) {
    let unless_built = |closely| match settings.built {
        true => Visit::Passing,
        false => closely,
    };
    for made in makers::specials() {
        for walls in WALLS {
            let case = case(random, &made, walls);
            visit(random, &case, unless_built(Visit::Thorough));
        }
    }
    for _ in 0..settings.cases {
        let most = random.pick(&[4, 9, 16, 60]);
        let made = makers::mesh(random, most);
        let walls = any_walls(random);
        let case = case(random, &made, walls);
        visit(random, &case, unless_built(Visit::Usual));
    }
    if settings.large {
        large(random, settings.built, visit);
    }
    for made in makers::crowded_specials() {
        for walls in WALLS {
            let case = case(random, &made, walls);
            visit(random, &case, unless_built(Visit::Thorough));
        }
    }
    for _ in 0..settings.cases / FOR_A_CROWDED {
        let made = makers::crowded(random);
        let walls = any_walls(random);
        let case = case(random, &made, walls);
        visit(random, &case, unless_built(Visit::Usual));
    }
}

fn large(random: &mut Random, built: bool, visit: &mut Visitor<'_>) {
    for made in [makers::quads(127, 129), makers::hexes(20, 21, 26)] {
        let case = case(random, &made, Walls::Mixed);
        visit(random, &case, Visit::Passing);
    }
    if built {
        return;
    }
    for count in [LIMIT, LIMIT + 1] {
        let case = case(random, &makers::apart(count), Walls::Fixed);
        visit(random, &case, Visit::Passing);
    }
}

fn any_walls(random: &mut Random) -> Walls {
    match random.chance(1, 2) {
        true => Walls::Mixed,
        false => random.pick(&WALLS),
    }
}

/// Fills the fields of a mesh. Its stencil is the Rust's, or where the Rust refuses it one at random.
/// Given coefficients and predicted fluxes are at times the Rust's own.
pub fn case(random: &mut Random, made: &Made, walls: Walls) -> Case {
    let mut lent = makers::lent(random, made, walls);
    makers::fill(random, &mut lent);
    let mut case = Case {
        name: format!("{}, walls {walls:?}", made.name),
        lent,
        equations: None,
    };
    give_stencil(random, &mut case);
    if random.chance(1, 2) {
        give_parts(&mut case.lent);
    }
    case
}

fn give_stencil(random: &mut Random, case: &mut Case) {
    let lent = &mut case.lent;
    let built = LeastSquaresGradientStencil::new(&lent.mesh(), &lent.conditions());
    let Ok(stencil) = built else {
        return random_stencil(random, lent);
    };
    let equations: usize = calls::equation_counts(&stencil).iter().sum();
    case.equations = Some(equations);
    lent.records = (equations + random.pick(&[0, 0, 1, 5])).min(LIMIT);
    if export_stencil(&stencil, lent.records, &mut lent.slices).is_none() {
        random_stencil(random, lent);
    }
}

/// Chains of random equations, up to four a cell and within the limit.
fn random_stencil(random: &mut Random, lent: &mut Lent) {
    let cells = lent.counts.cells;
    let slices = &mut lent.slices;
    slices.starts.clear();
    slices.equations.clear();
    slices.weights.clear();
    for _ in 0..cells {
        let used = slices.equations.len() / 2;
        let length = random.below(5).min(LIMIT - used);
        let first = used + 1;
        slices.starts.push(if length == 0 { 0 } else { first });
        for place in 1..=length {
            let next = if place == length { 0 } else { first + place };
            slices.equations.extend([random.below(cells + 2), next]);
            for _ in 0..4 {
                slices.weights.push(makers::float(random, Style::Ordinary));
            }
        }
    }
    slices.inverses = (0..9 * cells)
        .map(|_| makers::float(random, Style::Ordinary))
        .collect();
    lent.records = slices.equations.len() / 2;
}

/// Puts the Rust's own coefficients and predicted flux in the place of given ones.
fn give_parts(lent: &mut Lent) {
    if let Outcome::Accepted(parts) = calls::run(Entry::RhieChowPredictedFlux, lent) {
        lent.slices.take(Part::Predicted, &parts);
        lent.slices.take(Part::Gradient, &parts);
    }
    if let Outcome::Accepted(parts) = calls::run(Entry::PressureFaceCoefficientsWithBoundary, lent)
    {
        lent.slices.take(Part::Coefficients, &parts);
    }
}

impl Case {
    /// What is lent to an entry. One that builds a stencil is lent just enough records, some more, or
    /// fewer; one that makes the distances has numbers of every kind in their places.
    pub fn lent_to(&self, random: &mut Random, entry: Entry) -> Lent {
        let mut lent = self.lent.clone();
        if entry.outputs().contains(&Part::Starts) {
            let enough = self.equations.unwrap_or(8 * self.lent.counts.cells);
            lent.records = match random.below(8) {
                0 => enough.saturating_sub(1),
                1 => random.below(enough + 1),
                2 => enough + 3,
                _ => enough,
            }
            .min(LIMIT);
        }
        if entry.outputs().contains(&Part::Geometry) {
            for record in lent.slices.geometry.chunks_exact_mut(FACE_WIDTH) {
                record[OWN..].fill_with(|| makers::float(random, Style::Wild));
            }
        }
        lent
    }
}

/// The parts of a step before the prediction with links, which is no entry, and those after it.
const BEFORE_LINKS: [Entry; 3] = [
    Entry::LeastSquaresStencil,
    Entry::RhieChowPredictedFlux,
    Entry::PressureFaceCoefficientsWithBoundary,
];
const AFTER_LINKS: [Entry; 2] = [Entry::CorrectFaceFluxWithBoundary, Entry::ContinuityMetrics];

/// What is lent with what these hand out, one after another, or how one of them refuses.
pub fn handed_on(lent: &Lent, entries: &[Entry]) -> Result<Lent, Outcome> {
    let mut lent = lent.clone();
    for &entry in entries {
        match calls::run(entry, &lent) {
            Outcome::Accepted(found) => {
                for &part in entry.outputs() {
                    lent.slices.take(part, &found);
                }
            }
            refused => return Err(refused),
        }
    }
    Ok(lent)
}

/// What is lent with what the step has before the prediction with links.
pub fn begun(lent: &Lent) -> Result<Lent, Outcome> {
    handed_on(lent, &BEFORE_LINKS)
}

/// The rest of a step, whose predicted fluxes stand where they are lent.
pub fn finished(lent: &Lent) -> Outcome {
    match handed_on(lent, &AFTER_LINKS) {
        Ok(lent) => Outcome::Accepted(Box::new(lent.slices)),
        Err(refused) => refused,
    }
}

/// The step's outcome put together from the outcomes of its parts.
pub fn step_by_parts(lent: &Lent) -> Outcome {
    let mut lent = match begun(lent) {
        Ok(lent) => lent,
        Err(refused) => return refused,
    };
    match calls::linked_flux(&lent) {
        Outcome::Accepted(found) => lent.slices.take(Part::Predicted, &found),
        refused => return refused,
    }
    finished(&lent)
}
