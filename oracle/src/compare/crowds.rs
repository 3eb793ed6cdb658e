//! How often the limit of 14 is met: calls with a cell of as many faces as it allows, and of more.

use crate::calls::{self, Outcome};
use crate::checks::{self, MOST};
use crate::entry::{Entry, Part};
use crate::lent::Lent;

#[derive(Default)]
pub struct Crowds {
    /// Calls that 14 refuses.
    refused: u64,
    /// Those of them whose named cell has too many faces, too many records, both.
    tests: [u64; 3],
    /// Those with several such cells.
    several: u64,
    /// Those with cells by both tests, the lowest by one not the lowest by the other.
    apart: u64,
    /// Those that 6, and those that arithmetic would have refused.
    next: [u64; 2],
    /// Accepted calls with a cell of exactly as many faces or records as 14 allows.
    full: u64,
}

impl Crowds {
    pub fn count(&mut self, entry: Entry, lent: &Lent, expected: &Outcome) {
        match expected {
            Outcome::Refused(refusal) if refusal.number == 14 => {
                self.count_refused(entry, lent, refusal.index);
            }
            Outcome::Refused(_) => {}
            Outcome::Accepted(_) => self.full += u64::from(is_full(entry, lent)),
        }
    }

    fn count_refused(&mut self, entry: Entry, lent: &Lent, cell: usize) {
        let [by_faces, by_records] = checks::crowded(entry, lent);
        self.refused += 1;
        let test = match [&by_faces, &by_records].map(|cells| cells.contains(&cell)) {
            [true, false] => 0,
            [false, _] => 1,
            [true, true] => 2,
        };
        self.tests[test] += 1;
        let highest = by_faces.iter().chain(&by_records).max();
        self.several += u64::from(highest != Some(&cell));
        let lowest = by_faces.first().zip(by_records.first());
        self.apart += u64::from(lowest.is_some_and(|(a, b)| a != b));
        if entry.lends(Part::Codes) && !checks::bad_links(lent).is_empty() {
            self.next[0] += 1;
        } else if matches!(calls::run(entry, lent), Outcome::Refused(_)) {
            self.next[1] += 1;
        }
    }

    pub fn print(&self, entry: Entry) {
        let [faces, records, both] = self.tests;
        let mut tests = format!("{faces} by faces");
        if entry.lends(Part::Facing) {
            tests += &format!(", {records} by records, {both} by both");
            tests += &format!("; {} with a lowest cell of each test", self.apart);
        }
        let [links, arithmetic] = self.next;
        let mut next = format!("arithmetic would have refused {arithmetic}");
        if entry.lends(Part::Codes) {
            next = format!("6 would have refused {links}, {next}");
        }
        println!(
            "{}: {} of them refused by 14 ({tests}; {} with several such cells; {next}), \
             {} accepted with a cell of {MOST}",
            entry.name(),
            self.refused,
            self.several,
            self.full
        );
    }
}

/// Whether a cell has as many faces or records as 14 allows.
fn is_full(entry: Entry, lent: &Lent) -> bool {
    let is_most = |found: Vec<usize>| found.contains(&MOST);
    (entry.lends(Part::Adjacency) && is_most(checks::namings(lent)))
        || (entry.lends(Part::Facing) && is_most(checks::face_records(lent)))
}
