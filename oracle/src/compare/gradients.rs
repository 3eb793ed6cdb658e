//! How often 12 is met by the gradients of Gauss, what it comes after, and what they accept: volumes, distances,
//! conditions and numbers of every kind.

use crate::calls::{self, Outcome, Place};
use crate::checks;
use crate::entry::{Entry, Part};
use crate::lent::{Lent, Slices, FACE_WIDTH};
use std::fmt::Write;

#[derive(Default)]
pub struct Gradients {
    /// Calls that 12 refuses.
    refused: u64,
    /// Those of them with another cell than the first, and with several such cells.
    later: u64,
    several: u64,
    /// Those whose named volume is 0, -0, a subnormal number below 0, another number below 0, -infinity.
    volumes: [u64; 5],
    /// Calls that 3, 4, 14, 6, 20 refuses where 12 would too.
    before: [u64; 5],
    /// Calls that nothing but 3 refuses before arithmetic, by what the Rust answers: 12, 3, or that it accepts.
    rust: [u64; 3],
    /// Accepted calls with a volume that is a NaN, infinite, subnormal.
    passed: [u64; 3],
    /// Those in which a number that the gradient is taken of, one of an area vector, one of the gradient is of
    /// each kind.
    numbers: Kinds,
    areas: Kinds,
    gradients: Kinds,
    faces: Faces,
}

/// Accepted calls with numbers that are NaNs, infinite, -0, subnormal.
#[derive(Default)]
struct Kinds([u64; 4]);

/// Faces of accepted calls that read a pressure at each.
#[derive(Default)]
struct Faces {
    /// With distances on both sides.
    between: u64,
    /// Those of them whose distances add up to 0, to infinity, to a NaN; and those with one of the two 0.
    sums: [u64; 3],
    one: u64,
    /// Linked ones with a fixed value, zero gradient, no condition.
    linked: [u64; 3],
    /// Ones with two cells and a fixed value.
    inner: u64,
    /// Unlinked ones with one cell: those with a fixed value, zero gradient, no condition.
    walls: [u64; 3],
}

impl Kinds {
    fn count(&mut self, numbers: impl Iterator<Item = f64>) {
        let mut found = [false; 4];
        for x in numbers {
            found[0] |= x.is_nan();
            found[1] |= x.is_infinite();
            found[2] |= x.to_bits() == (-0.0f64).to_bits();
            found[3] |= x.is_subnormal();
        }
        for (count, found) in self.0.iter_mut().zip(found) {
            *count += u64::from(found);
        }
    }

    fn text(&self) -> String {
        let [nan, infinite, zero, subnormal] = self.0;
        format!("NaN {nan}, infinite {infinite}, -0 {zero}, subnormal {subnormal}")
    }
}

/// Every cell whose volume 12 refuses, the lowest first; as many as the slice has records for.
fn bad_volumes(lent: &Lent) -> Vec<usize> {
    let volumes = lent.slices.places.chunks_exact(4).map(|record| record[3]);
    let bad = volumes.enumerate().filter(|(_, volume)| *volume <= 0.0);
    bad.map(|(cell, _)| cell).collect()
}

impl Gradients {
    pub fn count(&mut self, entry: Entry, lent: &Lent, outputs: &Slices, expected: &Outcome) {
        if !entry.is_gauss() {
            return;
        }
        match expected {
            Outcome::Accepted(handed) => self.count_accepted(entry, lent, handed),
            Outcome::Refused(refusal) if refusal.place == Place::Arithmetic => {
                self.count_refused(lent, refusal.index);
            }
            Outcome::Refused(refusal) => {
                self.count_before(entry, lent, outputs, refusal.number);
            }
        }
    }

    fn count_refused(&mut self, lent: &Lent, cell: usize) {
        let bad = bad_volumes(lent);
        assert_eq!(bad.first(), Some(&cell), "12 names the lowest such cell");
        self.refused += 1;
        self.later += u64::from(cell > 0);
        self.several += u64::from(bad.len() > 1);
        let volume = lent.slices.places[4 * cell + 3];
        let kind = match volume {
            0.0 => usize::from(volume.is_sign_negative()),
            _ if volume.is_subnormal() => 2,
            f64::NEG_INFINITY => 4,
            _ => 3,
        };
        self.volumes[kind] += 1;
    }

    fn count_before(&mut self, entry: Entry, lent: &Lent, outputs: &Slices, number: u64) {
        let is_bad = !bad_volumes(lent).is_empty();
        let kinds = [3, 4, 14, 6, 20];
        if let Some(kind) = kinds.iter().position(|&kind| kind == number) {
            self.before[kind] += u64::from(is_bad);
        }
        if number != 3 {
            return;
        }
        let mut same = lent.clone();
        same.renumber(lent.counts.mesh);
        if checks::check(entry, &same, outputs).is_some() {
            return;
        }
        match calls::run(entry, lent) {
            Outcome::Refused(refusal) if refusal.number == 12 => self.rust[0] += 1,
            Outcome::Refused(_) => self.rust[1] += 1,
            Outcome::Accepted(_) => self.rust[2] += 1,
        }
    }

    fn count_accepted(&mut self, entry: Entry, lent: &Lent, handed: &Slices) {
        let slices = &lent.slices;
        let volumes = || slices.places.chunks_exact(4).map(|record| record[3]);
        self.passed[0] += u64::from(volumes().any(f64::is_nan));
        self.passed[1] += u64::from(volumes().any(f64::is_infinite));
        self.passed[2] += u64::from(volumes().any(f64::is_subnormal));
        let numbers = match entry.lends(Part::Pressure) {
            true => &slices.pressure,
            false => &slices.face_values,
        };
        self.numbers.count(numbers.iter().copied());
        let records = slices.geometry.chunks_exact(FACE_WIDTH);
        self.areas
            .count(records.flat_map(|record| record[3..6].iter().copied()));
        self.gradients.count(handed.gradient.iter().copied());
        if entry.lends(Part::Pressure) {
            self.faces.count(entry.lends(Part::Codes), lent);
        }
    }

    pub fn print(&self, entry: Entry) {
        let name = entry.name();
        let [zero, minus, subnormal, below, infinite] = self.volumes;
        let [three, four, fourteen, six, twenty] = self.before;
        let mut before = format!("3 {three}, 4 {four}, 14 {fourteen}");
        if entry.lends(Part::Codes) {
            let _ = write!(before, ", 6 {six}");
        }
        let [twelve, other, accepted] = self.rust;
        println!(
            "{name}: {} of them refused by 12 ({} at a cell that is not the first, {} with several such cells; volume 0 \
             {zero}, -0 {minus}, subnormal below 0 {subnormal}, other below 0 {below}, -infinite {infinite}); refused \
             before it with such a cell too: {before}, 20 {twenty}; of what 3 alone refuses the Rust refuses {twelve} by \
             12 and {other} by 3, and accepts {accepted}",
            self.refused, self.later, self.several
        );
        let [nan, infinite, subnormal] = self.passed;
        println!(
            "{name}: accepted with a volume NaN {nan}, infinite {infinite}, subnormal {subnormal}; with {} {}; in area \
             vectors {}; in the gradient {}",
            match entry.lends(Part::Pressure) {
                true => "pressures",
                false => "face values",
            },
            self.numbers.text(),
            self.areas.text(),
            self.gradients.text()
        );
        if entry.lends(Part::Pressure) {
            self.faces.print(entry);
        }
    }
}

impl Faces {
    fn count(&mut self, has_conditions: bool, lent: &Lent) {
        let codes = |face: usize| match has_conditions {
            true => (lent.slices.codes[2 * face], lent.slices.codes[2 * face + 1]),
            false => (0, 0),
        };
        // a fixed value, zero gradient, none
        let kind = |code: usize| match code {
            0 => 2,
            code => code - 1,
        };
        for face in 0..lent.counts.faces {
            let neighbour = lent.slices.adjacency[2 * face + 1];
            let (code, peer) = codes(face);
            let beyond = match (neighbour, peer) {
                (0, 0) => {
                    self.walls[kind(code)] += 1;
                    continue;
                }
                (0, _) => {
                    self.linked[kind(code)] += 1;
                    lent.image_distance(face, peer - 1)
                }
                _ => {
                    self.inner += u64::from(code == 1);
                    lent.distance(face, neighbour - 1)
                }
            };
            let own = lent.distance(face, lent.slices.adjacency[2 * face]);
            let sides = [own, beyond].map(|side| side.expect("a sound mesh"));
            self.count_sides(sides);
        }
    }

    fn count_sides(&mut self, [own, beyond]: [f64; 2]) {
        let sum = own + beyond;
        self.between += 1;
        self.sums[0] += u64::from(sum == 0.0);
        self.sums[1] += u64::from(sum.is_infinite());
        self.sums[2] += u64::from(sum.is_nan());
        self.one += u64::from((own == 0.0) != (beyond == 0.0));
    }

    fn print(&self, entry: Entry) {
        let [zero, infinite, nan] = self.sums;
        let mut text = format!(
            "{} faces between two centres, {zero} with distances that add up to 0, {infinite} to infinity, {nan} to a \
             NaN, {} with one of them 0",
            self.between, self.one
        );
        let [fixed, gradient, absent] = self.walls;
        if entry.lends(Part::Codes) {
            let [beside, other, none] = self.linked;
            let _ = write!(
                text,
                "; linked with a fixed value {beside}, zero gradient {other}, no condition {none}; with two cells and a \
                 fixed value {}; with one cell and a fixed value {fixed}, zero gradient {gradient}, no condition {absent}",
                self.inner
            );
        } else {
            let _ = write!(text, "; with one cell {absent}");
        }
        println!("{}: accepted with {text}", entry.name());
    }
}
