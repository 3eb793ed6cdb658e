//! The fixed list: small calls with the Rust's answers, for tests that have no Rust at hand. Its layout is
//! in README.md and, in short, in its own heading.

use crate::calls::{Outcome, Place};
use crate::cases::{self, Case, Visit};
use crate::checks;
use crate::compare::{damages, expected, patterned};
use crate::damage;
use crate::entry::{Entry, Part};
use crate::lent::{Lent, Slices};
use crate::makers::{self, Made, Walls};
use crate::random::Random;
use std::collections::BTreeMap;
use std::fmt::Write;

const SEED: u64 = 20_261_106;

/// Kinds of blocks.
const MESH: u64 = 1;
const CONDITIONS: u64 = 2;
const ROOTS: u64 = 3;
const FIRST_ENTRY: u64 = 16;

/// The slices of a mesh block and of a block of conditions, in order.
const MESH_PARTS: [Part; 6] = [
    Part::Adjacency,
    Part::Geometry,
    Part::Heads,
    Part::Places,
    Part::Facing,
    Part::Bordering,
];
const CONDITION_PARTS: [Part; 2] = [Part::Codes, Part::Values];

const ROOT_COUNT: usize = 96;

/// How many refusals of one entry may have the same number.
const REFUSED: usize = 4;

#[derive(Default)]
struct List {
    blocks: String,
    words: usize,
    mesh: Vec<u64>,
    conditions: Vec<u64>,
    meshes: usize,
    calls: usize,
    /// How many accepted calls an entry may have by now.
    accepted: usize,
    answers: BTreeMap<(usize, u64, u64), usize>,
    longest: BTreeMap<usize, usize>,
}

/// The whole list as text.
pub fn text() -> String {
    let mut random = Random::new(SEED);
    let mut list = List::default();
    list.add_roots(&mut random);
    add_edges(&mut list);
    list.accepted = 14;
    for made in makers::specials() {
        let number = number(&mut random);
        for walls in [Walls::ZeroGradient, Walls::Absent, Walls::Fixed] {
            add_case(&mut random, &mut list, &made, walls, number);
        }
    }
    list.accepted = 20;
    for (least, most) in [(20, 32), (9, 12), (7, 9), (5, 8), (4, 6), (3, 4), (2, 4)] {
        let made = sized(&mut random, least, most, false);
        let number = number(&mut random);
        add_case(&mut random, &mut list, &made, Walls::Mixed, number);
    }
    list.accepted = 26;
    for (least, most) in [(8, 9), (4, 6), (3, 4), (2, 3), (2, 2), (1, 1), (1, 1)] {
        let made = sized(&mut random, least, most, true);
        let number = number(&mut random);
        add_case(&mut random, &mut list, &made, Walls::Mixed, number);
    }
    for _ in 0..80 {
        let made = makers::mesh(&mut random, 4);
        let number = number(&mut random);
        add_case(&mut random, &mut list, &made, Walls::Wild, number);
    }
    add_damaged(&mut random, &mut list);
    add_wrong_distances(&mut random, &mut list);
    list.heading() + &list.blocks
}

/// A number for a mesh, so that the list does not depend on what was built before.
fn number(random: &mut Random) -> u64 {
    random.next() >> random.below(64)
}

/// The edges of document 01 that are calls.
fn add_edges(list: &mut List) {
    let specials = makers::specials();
    let named = |name: &str| {
        let mut random = Random::new(SEED);
        let made = specials.iter().find(|made| made.name == name);
        let made = made.expect("a mesh made by hand");
        let mut case = cases::case(&mut random, made, Walls::ZeroGradient);
        case.lent.renumber(1);
        case.lent
    };
    let mut lent = named("two cubes");
    lent.slices.responses = vec![0.5, 0.5];
    list.add(Entry::PressureFaceCoefficients, &lent);
    let mut lent = named("two squares");
    let inner = (0..lent.counts.faces)
        .find(|&face| lent.slices.adjacency[2 * face + 1] != 0)
        .expect("a face between the two");
    let wall = usize::from(inner == 0);
    lent.slices.correction = vec![1.0, 3.0];
    lent.slices.predicted.fill(1.0);
    lent.slices.coefficients.fill(0.0);
    lent.slices.predicted[inner] = 2.0;
    lent.slices.coefficients[inner] = 0.5;
    list.add(Entry::CorrectFaceFluxWithBoundary, &lent);
    lent.slices.codes[2 * wall] = 1;
    lent.slices.values[4 * wall] = 1.0;
    lent.slices.predicted[wall] = 0.0;
    lent.slices.coefficients[wall] = 2.0;
    lent.slices.correction = vec![4.0, 4.0];
    list.add(Entry::CorrectFaceFluxWithBoundary, &lent);
    lent.slices.coefficients[inner] = 0.0;
    list.add(Entry::CorrectFaceFluxWithBoundary, &lent);
    lent.slices.diagonal = vec![1.0, 0.0];
    list.add(Entry::MomentumInverseDiagonal, &lent);
    lent.slices.diagonal = vec![f64::from_bits(1), 4.0];
    list.add(Entry::MomentumInverseDiagonal, &lent);
    let mut lent = named("one triangle");
    lent.slices.flux = vec![1.0, 2f64.powi(-53), 2f64.powi(-53)];
    list.add(Entry::IntegratedDivergence, &lent);
    list.add(Entry::ContinuityMetrics, &lent);
    for name in ["two cells 2^-26 apart", "two cells 2^-25 apart"] {
        list.add(Entry::PressureFaceCoefficients, &named(name));
    }
}

fn add_case(random: &mut Random, list: &mut List, made: &Made, walls: Walls, number: u64) {
    let case = numbered(random, made, walls, number);
    for entry in Entry::of_document_01() {
        let lent = case.lent_to(random, entry);
        list.offer(entry, &lent, &patterned(entry, &lent));
    }
}

fn numbered(random: &mut Random, made: &Made, walls: Walls, number: u64) -> Case {
    let mut case = cases::case(random, made, walls);
    case.lent.renumber(number);
    case
}

/// Small meshes made by hand, and one with links.
fn small(random: &mut Random) -> Vec<Made> {
    let mut meshes = makers::specials();
    meshes.retain(|made| {
        let small = ["one triangle", "two triangles", "one tetrahedron"];
        small.contains(&made.name.as_str())
    });
    meshes.push(sized(random, 1, 1, true));
    meshes
}

/// Damaged copies of small meshes, with the distances of what they are then.
fn add_damaged(random: &mut Random, list: &mut List) {
    for made in &small(random) {
        let number = number(random);
        for entry in Entry::of_document_01() {
            let case = numbered(random, made, Walls::Mixed, number);
            add_damaged_calls(random, list, entry, &case);
        }
    }
}

fn add_damaged_calls(random: &mut Random, list: &mut List, entry: Entry, case: &Case) {
    let good = case.lent_to(random, entry);
    let outputs = patterned(entry, &good);
    let mut tries = damages(random, entry, &good, Visit::Thorough);
    for last in (1..tries.len()).rev() {
        tries.swap(last, random.below(last + 1));
    }
    for damages in tries {
        let mut lent = good.clone();
        let mut outputs = outputs.clone();
        let damages = damage::refilled(damages);
        damage::apply(entry, &damages, &mut lent, &mut outputs);
        if matches!(expected(entry, &lent, &outputs), Outcome::Refused(_)) {
            list.offer(entry, &lent, &outputs);
        }
    }
}

/// Copies of small meshes that 20 refuses, one a mesh and an entry.
fn add_wrong_distances(random: &mut Random, list: &mut List) {
    for made in &small(random) {
        let number = number(random);
        for entry in Entry::of_document_01().filter(|entry| entry.checks_distances()) {
            let case = numbered(random, made, Walls::Mixed, number);
            let good = case.lent_to(random, entry);
            loop {
                let mut lent = good.clone();
                let mut outputs = patterned(entry, &good);
                let damages = damage::of_distances(random, entry, &good).expect("it has faces");
                damage::apply(entry, &damages, &mut lent, &mut outputs);
                makers::canonical(&mut lent.slices);
                let is_small = lent.counts.faces == good.counts.faces;
                if is_small && answer(&expected(entry, &lent, &outputs)).0 == 20 {
                    list.offer(entry, &lent, &outputs);
                    break;
                }
            }
        }
    }
}

/// A mesh of so many cells, and not many faces; with links where asked for.
fn sized(random: &mut Random, least: usize, most: usize, linked: bool) -> Made {
    loop {
        let made = makers::mesh(random, most);
        let cells = made.mesh.cell_count();
        let is_small = cells <= most && made.mesh.face_count() <= 5 * most;
        if least <= cells && is_small && (made.links.is_some() || !linked) {
            return made;
        }
    }
}

impl List {
    fn add_roots(&mut self, random: &mut Random) {
        let mut words = Vec::new();
        for place in 0..ROOT_COUNT {
            let x = makers::root_argument(random, place);
            words.extend([x, x.sqrt()].map(canonical_bits));
        }
        self.write(ROOTS, &words, "roots: pairs of a number and its root");
    }

    /// Writes a call with outputs of the right lengths.
    fn add(&mut self, entry: Entry, lent: &Lent) {
        self.write_call(entry, lent, &patterned(entry, lent));
    }

    /// Writes a call where there are not yet enough with its answer. Of those that 6 refuses, the later
    /// half has several bad links.
    fn offer(&mut self, entry: Entry, lent: &Lent, outputs: &Slices) {
        let answer = answer(&expected(entry, lent, outputs));
        let key = (entry as usize, answer.0, answer.1);
        let most = match answer.0 {
            0 => self.accepted,
            6 if checks::bad_links(lent).len() == 1 => REFUSED / 2,
            _ => REFUSED,
        };
        if self.answers.get(&key).copied().unwrap_or(0) < most {
            self.write_call(entry, lent, outputs);
        }
    }

    fn write_call(&mut self, entry: Entry, lent: &Lent, outputs: &Slices) {
        let mut lent = lent.clone();
        makers::canonical(&mut lent.slices);
        self.write_mesh(&lent);
        self.write_conditions(&lent);
        let outcome = expected(entry, &lent, outputs);
        let (number, place, index) = answer(&outcome);
        let mut words = vec![if entry.has_stencil() {
            lent.records as u64
        } else {
            0
        }];
        for &part in entry.inputs() {
            if is_of_call(part) {
                if part.is_numbered() {
                    words.push(lent.number(part));
                }
                self.push_slice(&mut words, part, &lent.slices);
            }
        }
        for &part in entry.outputs() {
            let length = outputs.slice(part).len();
            words.push(length as u64);
            self.note_length(part, length);
        }
        words.extend([number, place, index]);
        if let Outcome::Accepted(mut outputs) = outcome {
            makers::canonical(&mut outputs);
            for &part in entry.outputs() {
                words.extend(outputs.slice(part).words());
            }
        }
        *self
            .answers
            .entry((entry as usize, number, place))
            .or_default() += 1;
        self.calls += 1;
        let what = match number {
            0 => format!("{}: accepted", entry.name()),
            _ => format!("{}: refused {number}", entry.name()),
        };
        self.write(FIRST_ENTRY + entry as u64, &words, &what);
    }

    /// Writes the mesh, unless it stands there already.
    fn write_mesh(&mut self, lent: &Lent) {
        let counts = &lent.counts;
        let mut words = vec![counts.mesh];
        words.extend(
            [
                counts.dimension,
                counts.cells,
                counts.faces,
                counts.face_records,
                counts.neighbour_records,
            ]
            .map(|count| count as u64),
        );
        for part in MESH_PARTS {
            self.push_slice(&mut words, part, &lent.slices);
        }
        if words != self.mesh {
            self.meshes += 1;
            let what = format!("mesh: {} cells, {} faces", counts.cells, counts.faces);
            self.write(MESH, &words, &what);
            self.mesh = words;
        }
    }

    /// Writes the conditions, unless they stand there already.
    fn write_conditions(&mut self, lent: &Lent) {
        let mut words = vec![lent.number(Part::Codes)];
        for part in CONDITION_PARTS {
            self.push_slice(&mut words, part, &lent.slices);
        }
        if words != self.conditions {
            self.write(CONDITIONS, &words, "conditions");
            self.conditions = words;
        }
    }

    fn push_slice(&mut self, words: &mut Vec<u64>, part: Part, slices: &Slices) {
        let slice = slices.slice(part);
        self.note_length(part, slice.len());
        words.push(slice.len() as u64);
        words.extend(slice.words());
    }

    fn note_length(&mut self, part: Part, length: usize) {
        let longest = self.longest.entry(part as usize).or_default();
        *longest = length.max(*longest);
    }

    fn write(&mut self, kind: u64, words: &[u64], what: &str) {
        self.words += words.len() + 2;
        let text = &mut self.blocks;
        let _ = writeln!(text, "# {what}\n{kind:016x}\n{:016x}", words.len());
        for word in words {
            let _ = writeln!(text, "{word:016x}");
        }
    }

    fn heading(&self) -> String {
        let mut text = format!(
            "# Calls of document 01 with the answers of the Rust of FLURSYS, commit f745a8f69b.\n\
             # Made by `oracle list`, seed {SEED}: {ROOT_COUNT} roots, {} calls on {} meshes, {} words.\n\
             # One 64-bit word a line. A block is its kind, its number of words, and these. A slice is its\n\
             # length and its numbers. oracle/README.md gives the layout. Every NaN is 7ff8000000000000.\n\
             # Numbers in this heading are decimal.\n\
             #\n\
             # kind 1, mesh: number, dimension, cells, faces, face records, neighbour records; slices\n\
             #   {}.\n\
             # kind 2, conditions: mesh number; slices {}.\n\
             # kind 3, roots: pairs of a number and its root.\n\
             # Others are calls on the mesh and the conditions last above them: equation records; the other\n\
             # lent slices, where marked * a mesh number before each; the lengths of the outputs; the answer\n\
             # (0 or the number of the refusal); 0 accepted, 1 outputs untouched, 2 outputs zero; the index of\n\
             # the refusal, 0 accepted; where accepted the outputs.\n",
            self.calls,
            self.meshes,
            self.words,
            MESH_PARTS.map(Part::name).join(" "),
            CONDITION_PARTS.map(Part::name).join(" "),
        );
        for entry in Entry::of_document_01() {
            text.push_str(&self.entry_line(entry));
        }
        let longest: Vec<String> = Part::ALL
            .iter()
            .filter_map(|&part| {
                let longest = self.longest.get(&(part as usize))?;
                Some(format!("{} {longest}", part.name()))
            })
            .collect();
        let _ = writeln!(text, "#\n# Longest slices: {}.\n#", longest.join(", "));
        text
    }

    /// What a kind of call holds, and how often each answer comes.
    fn entry_line(&self, entry: Entry) -> String {
        let lent: Vec<String> = entry
            .inputs()
            .iter()
            .filter(|part| is_of_call(**part))
            .map(|part| part.name().to_string() + if part.is_numbered() { "*" } else { "" })
            .collect();
        let outputs: Vec<&str> = entry.outputs().iter().map(|part| part.name()).collect();
        let answers: Vec<String> = self
            .answers
            .iter()
            .filter(|((of, _, _), _)| *of == entry as usize)
            .map(|((_, number, place), count)| match (number, place) {
                (1, 2) => format!("1 within arithmetic: {count}"),
                _ => format!("{number}: {count}"),
            })
            .collect();
        format!(
            "# kind {}, {}: lent {}; outputs {}.\n#   answers {}\n",
            FIRST_ENTRY + entry as u64,
            entry.name(),
            if lent.is_empty() {
                "nothing more".to_string()
            } else {
                lent.join(" ")
            },
            outputs.join(" "),
            answers.join(", ")
        )
    }
}

/// Whether a lent slice stands in the block of the call.
fn is_of_call(part: Part) -> bool {
    !MESH_PARTS.contains(&part) && !CONDITION_PARTS.contains(&part)
}

/// Number, place and index, as the list has them.
fn answer(outcome: &Outcome) -> (u64, u64, u64) {
    match outcome {
        Outcome::Accepted(_) => (0, 0, 0),
        Outcome::Refused(refusal) => {
            let place = match refusal.place {
                Place::Shape | Place::Mesh => 1,
                Place::Arithmetic => 2,
            };
            (refusal.number, place, refusal.index as u64)
        }
    }
}

fn canonical_bits(x: f64) -> u64 {
    if x.is_nan() {
        0x7ff8_0000_0000_0000
    } else {
        x.to_bits()
    }
}
