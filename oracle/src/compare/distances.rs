//! How often 20 is met, and what it comes before and after; and how often distances that are not finite pass.

use crate::calls::{self, Outcome, Place};
use crate::checks;
use crate::entry::{Entry, Part};
use crate::lent::{Lent, Slices, FACE_WIDTH, OTHER, OWN};

#[derive(Default)]
pub struct Distances {
    /// Calls that 20 refuses.
    refused: u64,
    /// Those of them at whose face the distance to the owner is wrong, the one on the other side, both.
    sides: [u64; 3],
    /// Those with several such faces.
    several: u64,
    /// Those that the Rust, which has no such numbers, accepts, and those that its arithmetic refuses.
    rust: [u64; 2],
    /// Calls that 4, 5, 14 or 6 refuses where a distance is wrong too.
    before: u64,
    /// Distances that pass, or are made.
    passed: u64,
    /// Calls that pass with a distance that is not finite, or make one.
    special: u64,
    /// Calls that pass with a wrong distance that they do not look at.
    unseen: u64,
}

impl Distances {
    pub fn count(&mut self, entry: Entry, lent: &Lent, expected: &Outcome) {
        match expected {
            Outcome::Refused(refusal) if refusal.number == 20 => {
                self.count_refused(entry, lent, refusal.index);
            }
            Outcome::Refused(refusal) if refusal.place == Place::Mesh => {
                let is_wrong = !checks::wrong_distances(entry, lent).is_empty();
                self.before += u64::from(is_wrong);
            }
            Outcome::Refused(refusal) if refusal.place == Place::Shape => {}
            Outcome::Accepted(outputs) if entry.outputs().contains(&Part::Geometry) => {
                self.count_passed(entry, lent, outputs);
            }
            _ if entry.checks_distances() => {
                self.count_passed(entry, lent, &lent.slices);
                let of_step = !checks::wrong_distances(Entry::Step, lent).is_empty();
                self.unseen += u64::from(of_step);
            }
            _ => {}
        }
    }

    fn count_passed(&mut self, entry: Entry, lent: &Lent, slices: &Slices) {
        let mut has_special = false;
        for (face, record) in slices.geometry.chunks_exact(FACE_WIDTH).enumerate() {
            let sides = match checks::sees_other_side(entry, lent, face) {
                true => &record[OWN..=OTHER],
                false => &record[OWN..OTHER],
            };
            self.passed += sides.len() as u64;
            has_special |= sides.iter().any(|distance| !distance.is_finite());
        }
        self.special += u64::from(has_special);
    }

    fn count_refused(&mut self, entry: Entry, lent: &Lent, face: usize) {
        self.refused += 1;
        let side = match checks::wrong_sides(entry, lent, face) {
            [true, false] => 0,
            [false, _] => 1,
            [true, true] => 2,
        };
        self.sides[side] += 1;
        self.several += u64::from(checks::wrong_distances(entry, lent).len() > 1);
        let rust = match calls::run(entry, lent) {
            Outcome::Accepted(_) => 0,
            Outcome::Refused(_) => 1,
        };
        self.rust[rust] += 1;
    }

    pub fn print(&self, entry: Entry) {
        if !entry.checks_distances() {
            println!(
                "{}: {} distances made, {} calls with one that is not finite",
                entry.name(),
                self.passed,
                self.special
            );
            return;
        }
        let [own, other, both] = self.sides;
        let [accepted, refused] = self.rust;
        let mut passed = format!("{} distances, ", self.passed);
        passed += &format!("{} calls with one that is not finite", self.special);
        if !entry.lends(Part::Codes) {
            passed += &format!(", {} with a wrong one that needs links", self.unseen);
        }
        println!(
            "{}: {} of them refused by 20 ({own} by the owner's distance, {other} by the other, {both} by both; {} \
             with several such faces; the Rust accepts {accepted}, its arithmetic refuses {refused}), {} by a check \
             before 20 with such a face too; passed: {passed}",
            entry.name(),
            self.refused,
            self.several,
            self.before
        );
    }
}
