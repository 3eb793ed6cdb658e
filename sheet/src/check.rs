//! Marks flux sheets and gradient sheets against the engine's.

use crate::items::within;
use crate::lines::{last_line, lines, text, Line};
use crate::mistake::{AtLine, Mistake};
use crate::number::{bits, decimal, index, is_same, number, units_apart};
use crate::report::{FLUX_HEADING, GRADIENT_HEADING, OUTFLOW_HEADING};

/// What is marked: a line of numbers for each face, or for each cell.
#[derive(Debug, PartialEq, Eq)]
struct Kind {
    /// `face` or `cell`.
    what: &'static str,
    /// What a line has.
    line: &'static str,
    /// The names of its numbers; one alone has none.
    numbers: &'static [&'static str],
    /// The heading that is passed over.
    heading: &'static str,
    /// The heading from which on nothing is read.
    end: Option<&'static str>,
}

const FLUXES: Kind = Kind {
    what: "face",
    line: "a face and its flux, two words",
    numbers: &[""],
    heading: FLUX_HEADING,
    end: Some(OUTFLOW_HEADING),
};

const GRADIENT: Kind = Kind {
    what: "cell",
    line: "a cell and its gradient, four words",
    numbers: &["x", "y", "z"],
    heading: GRADIENT_HEADING,
    end: None,
};

/// Reads a flux sheet for a mesh with so many faces: a line `FACE VALUE` for each face, in any order. What a run
/// prints can be read too: the heading before the fluxes is passed over, and nothing is read from the heading of
/// the outflows on.
///
/// # Errors
///
/// The first line that is wrong in form, a face that is given twice or not there, or one that is missing.
pub fn read(bytes: &[u8], faces: usize) -> Result<Vec<f64>, Mistake> {
    FLUXES.read(bytes, faces)
}

/// Reads a gradient sheet for a mesh with so many cells: a line `CELL X Y Z` for each cell, in any order, in 2D
/// too. What a run prints can be read: its heading is passed over. The numbers come one after another, three for
/// a cell.
///
/// # Errors
///
/// As of [`read`], of cells.
pub fn read_gradient(bytes: &[u8], cells: usize) -> Result<Vec<f64>, Mistake> {
    GRADIENT.read(bytes, cells)
}

/// A line of a file, and the numbers in it.
type Row = (usize, Vec<f64>);

impl Kind {
    fn read(&self, bytes: &[u8], count: usize) -> Result<Vec<f64>, Mistake> {
        let text = text(bytes)?;
        let mut found: Vec<Option<Row>> = vec![None; count];
        for line in lines(text) {
            let words = line.words.join(" ");
            if words == self.heading {
                continue;
            }
            if Some(words.as_str()) == self.end {
                break;
            }
            let (at, numbers) = self.row(&line, count).at(line.number)?;
            if let Some((first, _)) = found[at].replace((line.number, numbers)) {
                let what = self.what;
                let reason = format!("{what} {at} is given twice, first on line {first}");
                return Err(Mistake::new(line.number, reason));
            }
        }
        self.complete(&found, last_line(text))
    }

    /// A line of the number of a face or a cell and what it has.
    fn row(&self, line: &Line<'_>, count: usize) -> Result<(usize, Vec<f64>), String> {
        let (at, numbers) = match line.words.split_first() {
            Some((at, numbers)) if numbers.len() == self.numbers.len() => (at, numbers),
            _ => {
                let (due, found) = (self.line, line.words.len());
                return Err(format!("expected {due}, found {found}"));
            }
        };
        let at = index(at, self.what)?;
        within(at, count, self.what)?;
        let numbers = numbers.iter().map(|word| number(word));
        Ok((at, numbers.collect::<Result<_, _>>()?))
    }

    /// The numbers, where every face or every cell has its own.
    fn complete(&self, found: &[Option<Row>], last_line: usize) -> Result<Vec<f64>, Mistake> {
        match found.iter().position(Option::is_none) {
            None => {
                let rows = found.iter().flatten();
                Ok(rows.flat_map(|(_, numbers)| numbers).copied().collect())
            }
            Some(at) => {
                let (what, given) = (self.what, found.iter().flatten().count());
                let reason = format!(
                    "{what} {at} is missing: {given} of {} {what}s are given",
                    found.len()
                );
                Err(Mistake::new(last_line, reason))
            }
        }
    }
}

/// How a flux sheet or a gradient sheet compares with the engine's.
#[derive(Clone, Debug, PartialEq)]
pub struct Mark {
    kind: &'static Kind,
    /// How many faces or cells there are.
    pub count: usize,
    /// How many have the same flux or gradient, bit for bit.
    pub right: usize,
    /// The first number that is wrong.
    pub first_wrong: Option<Wrong>,
}

/// A wrong number.
#[derive(Clone, Copy, Debug, PartialEq)]
pub struct Wrong {
    /// The face or the cell.
    pub at: usize,
    /// Of a gradient `x`, `y` or `z`; of a flux it is empty.
    pub component: &'static str,
    /// The number given.
    pub given: f64,
    /// The right one.
    pub right: f64,
}

impl Mark {
    /// Compares fluxes face by face. A NaN is the same as any other; the two zeros are not.
    pub fn of(given: &[f64], right: &[f64]) -> Self {
        Self::of_kind(&FLUXES, given, right)
    }

    /// Compares gradients cell by cell, three numbers each, likewise.
    pub fn of_gradient(given: &[f64], right: &[f64]) -> Self {
        Self::of_kind(&GRADIENT, given, right)
    }

    fn of_kind(kind: &'static Kind, given: &[f64], right: &[f64]) -> Self {
        let mut mark = Self {
            kind,
            count: 0,
            right: 0,
            first_wrong: None,
        };
        let width = kind.numbers.len();
        let rows = given.chunks_exact(width).zip(right.chunks_exact(width));
        for (at, (given, right)) in rows.enumerate() {
            mark.count += 1;
            let numbers = kind.numbers.iter().zip(given.iter().zip(right));
            let mut wrong = numbers.filter(|(_, (given, right))| !is_same(**given, **right));
            match wrong.next() {
                None => mark.right += 1,
                Some((component, (&given, &right))) => {
                    mark.first_wrong = mark.first_wrong.or(Some(Wrong {
                        at,
                        component,
                        given,
                        right,
                    }));
                }
            }
        }
        mark
    }

    /// The mark of a file, in one line, or in four where a face or a cell is wrong.
    pub fn report(&self, file: &str) -> String {
        let what = self.kind.what;
        let mut text = format!("{file}: {} of {} {what}s right\n", self.right, self.count);
        if let Some(wrong) = &self.first_wrong {
            let (given, right) = (wrong.given, wrong.right);
            let component = match wrong.component {
                "" => String::new(),
                component => format!(", {component}"),
            };
            let apart = apart(given, right);
            text += &format!("first wrong: {what} {}{component}, {apart}\n", wrong.at);
            for (name, number) in [("given", given), ("right", right)] {
                text += &format!("  {name} {} {}\n", bits(number), decimal(number));
            }
        }
        text
    }
}

/// How far two numbers are from each other, in words.
fn apart(given: f64, right: f64) -> String {
    match units_apart(given, right) {
        None => "one of the two is not a number".to_string(),
        Some(0) => "a zero of the other sign".to_string(),
        Some(1) => "1 unit in the last place apart".to_string(),
        Some(units) => format!("{units} units in the last place apart"),
    }
}
