//! Exact arithmetic for demand 3: a finite float as a whole number of units of 2^-1074.

use crate::entry::Entry;
use crate::lent::{Lent, Slices};

const WORDS: usize = 36;

/// A whole number in two's complement. A float needs 2099 bits with its sign; sums of 2^17 terms, 2^53
/// and the number of terms take 87 more.
#[derive(Clone, Copy, Debug, PartialEq, Eq)]
pub struct Units([u64; WORDS]);

impl Units {
    pub const ZERO: Units = Units([0; WORDS]);

    /// The units in a finite float.
    pub fn of(x: f64) -> Units {
        let bits = x.to_bits();
        let exponent = (bits >> 52 & 0x7ff) as usize;
        let fraction = bits & ((1 << 52) - 1);
        assert!(exponent < 0x7ff, "only a finite float has units");
        let magnitude = if exponent == 0 {
            Units::whole(fraction)
        } else {
            Units::whole(fraction | 1 << 52).shifted(exponent - 1)
        };
        if x.is_sign_negative() {
            magnitude.negated()
        } else {
            magnitude
        }
    }

    pub fn whole(number: u64) -> Units {
        let mut words = [0; WORDS];
        words[0] = number;
        Units(words)
    }

    pub fn plus(self, other: Units) -> Units {
        let mut words = [0; WORDS];
        let mut carry = 0;
        for (i, word) in words.iter_mut().enumerate() {
            let sum = self.0[i] as u128 + other.0[i] as u128 + carry;
            *word = sum as u64;
            carry = sum >> 64;
        }
        Units(words)
    }

    pub fn negated(self) -> Units {
        Units(self.0.map(|word| !word)).plus(Units::whole(1))
    }

    pub fn minus(self, other: Units) -> Units {
        self.plus(other.negated())
    }

    pub fn magnitude(self) -> Units {
        if self.is_negative() {
            self.negated()
        } else {
            self
        }
    }

    /// Times 2 to the `places`.
    pub fn shifted(self, places: usize) -> Units {
        let (jump, rest) = (places / 64, places % 64);
        let mut words = [0; WORDS];
        for i in jump..WORDS {
            let wide = (self.0[i - jump] as u128) << rest;
            words[i] |= wide as u64;
            if i + 1 < WORDS {
                words[i + 1] |= (wide >> 64) as u64;
            }
        }
        Units(words)
    }

    /// Of a number that is not below zero: so many times it.
    pub fn times(self, factor: u64) -> Units {
        let mut words = [0; WORDS];
        let mut carry = 0;
        for (i, word) in words.iter_mut().enumerate() {
            let product = self.0[i] as u128 * factor as u128 + carry;
            *word = product as u64;
            carry = product >> 64;
        }
        Units(words)
    }

    pub fn at_most(self, other: Units) -> bool {
        !other.minus(self).is_negative()
    }

    fn is_negative(self) -> bool {
        self.0[WORDS - 1] >> 63 == 1
    }
}

/// Whether `root` is the float nearest to the exact root of a finite positive x: the squares of its
/// midpoints with the floats next to it enclose x.
pub fn is_nearest_root(x: f64, root: f64) -> bool {
    let Some((x, exponent)) = parts(x) else {
        return false;
    };
    let Some((r, root_exponent)) = parts(root) else {
        return false;
    };
    // x and r have 53 bits; 4 r² and 4 x are compared at the lower of the two exponents
    let shift = exponent - 2 * root_exponent;
    if !(0..=72).contains(&shift) {
        return false;
    }
    let x = (x as u128) << (shift + 2);
    let low = if r == 1 << 52 {
        // the float below a power of two is half as far
        16 * (r as u128).pow(2) - 8 * r as u128 + 1 < 4 * x
    } else {
        (2 * r as u128 - 1).pow(2) < x
    };
    low && x < (2 * r as u128 + 1).pow(2)
}

/// A finite positive float as a whole number of 53 bits, and its power of two.
fn parts(x: f64) -> Option<(u64, i32)> {
    if !x.is_finite() || x <= 0.0 {
        return None;
    }
    let bits = x.to_bits();
    let exponent = (bits >> 52) as i32;
    let fraction = bits & ((1 << 52) - 1);
    if exponent == 0 {
        let up = fraction.leading_zeros() - 11;
        Some((fraction << up, -1074 - up as i32))
    } else {
        Some((fraction | 1 << 52, exponent - 1075))
    }
}

/// How many faces and pairs of an accepted call demand 3 speaks of.
#[derive(Clone, Copy, Default)]
pub struct Claimed {
    /// Faces that keep their given flux.
    pub kept: u64,
    /// Linked pairs whose corrected fluxes are opposite: of a step those with equal coefficients, of a correction those
    /// that are given opposite ones besides.
    pub opposite: u64,
    /// Linked pairs of a step, each of which leaves prediction exactly opposite.
    pub predicted: u64,
}

/// The functions of the Rust, and their sequence, of which demand 3 claims something.
pub const CLAIMED_OF_RUST: [Entry; 2] = [Entry::CorrectFaceFluxWithBoundary, Entry::Step];

/// Whether demand 3 claims something of an entry.
pub fn is_claimed(entry: Entry) -> bool {
    CLAIMED_OF_RUST.contains(&entry) || entry == Entry::CorrectFaceFluxInPlace
}

/// Demand 3 for an accepted call of such an entry.
pub fn claims(entry: Entry, lent: &Lent, outputs: &Slices) -> Option<Result<Claimed, String>> {
    match entry {
        Entry::Step => Some(step(lent, outputs)),
        Entry::CorrectFaceFluxWithBoundary => Some(correction(lent, &outputs.flux)),
        Entry::CorrectFaceFluxInPlace => Some(correction(lent, &outputs.predicted)),
        _ => None,
    }
}

/// Of a step: kept faces have their wall flux; linked pairs leave prediction exactly opposite, and those with equal
/// coefficients the correction, a zero's sign aside, whatever their wall fluxes are; and the balance holds.
fn step(lent: &Lent, outputs: &Slices) -> Result<Claimed, String> {
    let mut claimed = kept_and_opposite(lent, &lent.slices.walls, &outputs.flux, |face| {
        equal_peer(lent, &outputs.coefficients, face)
    })?;
    claimed.predicted = negated(lent, &outputs.predicted)?;
    balance(lent, &outputs.flux, &outputs.outflow)?;
    Ok(claimed)
}

/// Of a correction: kept faces have their given flux, and pairs that are given opposite fluxes and equal coefficients
/// stay opposite, a zero's sign aside.
fn correction(lent: &Lent, flux: &[f64]) -> Result<Claimed, String> {
    kept_and_opposite(lent, &lent.slices.predicted, flux, |face| {
        opposite_peer(lent, face)
    })
}

/// A cell's terms: how many there are, their exact sum, and the exact sum of their magnitudes.
#[derive(Clone, Copy)]
struct Terms {
    count: u64,
    exact: Units,
    magnitudes: Units,
}

impl Terms {
    const NONE: Terms = Terms {
        count: 0,
        exact: Units::ZERO,
        magnitudes: Units::ZERO,
    };

    fn add(&mut self, term: Units) {
        self.count += 1;
        self.exact = self.exact.plus(term);
        self.magnitudes = self.magnitudes.plus(term.magnitude());
    }

    /// How far a rounded sum may be from the exact one, times 2^53.
    fn bound(&self) -> Units {
        self.magnitudes.times(self.count.saturating_sub(1))
    }

    /// The same without the number of terms, of which an accepted step has 26 to a cell at most.
    fn quotable(&self) -> Units {
        self.magnitudes.times(25)
    }
}

/// Whether |found − exact| × 2^53 ≤ bound.
fn is_near(found: Units, exact: Units, bound: Units) -> bool {
    found.minus(exact).magnitude().shifted(53).at_most(bound)
}

/// Every flux and every outflow is finite, each cell's outflow is within its bound of the exact sum of its
/// terms, and all together are within the sum of these bounds of the exact flux through one-cell faces. No cell
/// has more than 26 terms, and the same holds with 25 in place of their number less one.
fn balance(lent: &Lent, flux: &[f64], outflow: &[f64]) -> Result<(), String> {
    let mut cells = vec![Terms::NONE; lent.counts.cells];
    let mut outside = Units::ZERO;
    for (face, &flux) in flux.iter().enumerate() {
        if !flux.is_finite() {
            return Err(format!("the flux of face {face} is not finite"));
        }
        let units = Units::of(flux);
        cells[lent.slices.adjacency[2 * face]].add(units);
        match lent.slices.adjacency[2 * face + 1] {
            0 => outside = outside.plus(units),
            neighbour => cells[neighbour - 1].add(units.negated()),
        }
    }
    let mut total = Units::ZERO;
    let mut allowance = Units::ZERO;
    let mut quotable = Units::ZERO;
    for (cell, (terms, &outflow)) in cells.iter().zip(outflow).enumerate() {
        if !outflow.is_finite() {
            return Err(format!("the outflow of cell {cell} is not finite"));
        }
        if !is_near(Units::of(outflow), terms.exact, terms.bound()) {
            return Err(format!("the outflow of cell {cell} is out of its bound"));
        }
        if terms.count > 26 || !is_near(Units::of(outflow), terms.exact, terms.quotable()) {
            return Err(format!(
                "the outflow of cell {cell} is out of the bound with 25"
            ));
        }
        total = total.plus(Units::of(outflow));
        allowance = allowance.plus(terms.bound());
        quotable = quotable.plus(terms.quotable());
    }
    if !is_near(total, outside, allowance) || !is_near(total, outside, quotable) {
        return Err("the outflows together are out of their bound".to_string());
    }
    Ok(())
}

/// Whether a face has one cell, no link and a zero gradient, so that it keeps its given flux.
pub fn is_kept(lent: &Lent, face: usize) -> bool {
    lent.slices.adjacency[2 * face + 1] == 0
        && lent.slices.codes[2 * face] == 2
        && lent.slices.codes[2 * face + 1] == 0
}

fn peer(lent: &Lent, face: usize) -> Option<usize> {
    lent.slices.codes[2 * face + 1].checked_sub(1)
}

/// The face that is linked with this one, where the two have equal coefficients.
pub fn equal_peer(lent: &Lent, coefficients: &[f64], face: usize) -> Option<usize> {
    peer(lent, face).filter(|&peer| coefficients[face] == coefficients[peer])
}

/// The face that is linked with this one, where a correction is given opposite fluxes of the two, a zero's sign aside,
/// and equal coefficients.
pub fn opposite_peer(lent: &Lent, face: usize) -> Option<usize> {
    let given = &lent.slices.predicted;
    let peer = equal_peer(lent, &lent.slices.coefficients, face);
    peer.filter(|&peer| given[face] == -given[peer])
}

/// Kept faces have the bits of their given flux, and faces with such a peer have a flux opposite to that one's, a zero's
/// sign aside.
fn kept_and_opposite(
    lent: &Lent,
    given: &[f64],
    flux: &[f64],
    peer: impl Fn(usize) -> Option<usize>,
) -> Result<Claimed, String> {
    let mut claimed = Claimed::default();
    for face in 0..lent.counts.faces {
        if is_kept(lent, face) {
            if flux[face].to_bits() != given[face].to_bits() {
                return Err(format!("face {face} does not keep its flux"));
            }
            claimed.kept += 1;
        }
        if let Some(peer) = peer(face) {
            if flux[face] != -flux[peer] {
                return Err(format!("faces {face} and {peer} are not opposite"));
            }
            claimed.opposite += u64::from(face < peer);
        }
    }
    Ok(claimed)
}

/// How many linked pairs there are. Each leaves prediction with finite fluxes, the higher face with the bits of the
/// lower's negated.
fn negated(lent: &Lent, predicted: &[f64]) -> Result<u64, String> {
    let mut pairs = 0;
    for face in 0..lent.counts.faces {
        let Some(peer) = peer(lent, face).filter(|&peer| face < peer) else {
            continue;
        };
        let is_exact = predicted[peer].to_bits() == (-predicted[face]).to_bits();
        if !is_exact || !predicted[face].is_finite() {
            return Err(format!(
                "faces {face} and {peer} do not leave prediction exactly opposite"
            ));
        }
        pairs += 1;
    }
    Ok(pairs)
}
