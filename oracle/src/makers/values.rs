//! Numbers for fields: ordinary ones, and every kind that a binary64 can be.

use crate::entry::Part;
use crate::lent::{Lent, SliceMut, Slices};
use crate::random::Random;

/// How the numbers of a field are chosen.
#[derive(Clone, Copy, Debug, PartialEq, Eq)]
pub enum Style {
    /// Near 1, some of them small whole numbers and signed zeros.
    Ordinary,
    /// One, zero and minus one, zeros of both signs: sums that cancel.
    Small,
    /// Near 1 and above 0.
    Positive,
    /// Any exponent, finite.
    Wide,
    /// Any exponent, finite and above 0.
    WidePositive,
    /// Any of the below with odds that favour what is special.
    Wild,
}

/// Zeros, ends of the ranges, infinities, and NaNs of both signs with several payloads.
const SPECIAL: [u64; 28] = [
    0x0000_0000_0000_0000,
    0x8000_0000_0000_0000,
    0x0000_0000_0000_0001,
    0x8000_0000_0000_0001,
    0x000f_ffff_ffff_ffff,
    0x0010_0000_0000_0000,
    0x0008_0000_0000_0000,
    0x3cb0_0000_0000_0000,
    0x3e50_0000_0000_0000,
    0x3fef_ffff_ffff_ffff,
    0x3ff0_0000_0000_0000,
    0x3ff0_0000_0000_0001,
    0xbff0_0000_0000_0000,
    0x5fef_ffff_ffff_ffff,
    0x5ff0_0000_0000_0000,
    0x7e37_e43c_8800_759c,
    0xfe37_e43c_8800_759c,
    0x7fef_ffff_ffff_ffff,
    0xffef_ffff_ffff_ffff,
    0x7ff0_0000_0000_0000,
    0xfff0_0000_0000_0000,
    0x7ff8_0000_0000_0000,
    0xfff8_0000_0000_0000,
    0x7ff8_0000_0000_0001,
    0xfff8_dead_beef_0001,
    0x7fff_ffff_ffff_ffff,
    0x7ff0_0000_0000_0001,
    0xfff4_0000_0000_0002,
];

pub fn float(random: &mut Random, style: Style) -> f64 {
    match style {
        Style::Ordinary => match random.below(8) {
            0 => random.between(0, 4) as f64 - 2.0,
            1 => -0.0,
            _ => random.range(-2.0, 2.0),
        },
        Style::Small => random.pick(&[1.0, 0.0, -0.0, -1.0]),
        Style::Positive => match random.below(6) {
            0 => random.between(1, 4) as f64,
            _ => random.range(0.01, 2.0),
        },
        Style::Wide => wide(random),
        Style::WidePositive => match wide(random).abs() {
            0.0 => f64::MIN_POSITIVE,
            x => x,
        },
        Style::Wild => match random.below(4) {
            0 => float(random, Style::Ordinary),
            1 => wide(random),
            2 => f64::from_bits(random.next()),
            _ => f64::from_bits(random.pick(&SPECIAL)),
        },
    }
}

/// Any finite bits.
fn wide(random: &mut Random) -> f64 {
    loop {
        let x = f64::from_bits(random.next());
        if x.is_finite() {
            return x;
        }
    }
}

/// An argument for the root: the special ones first, then bits of any exponent, squares and their
/// neighbours.
pub fn root_argument(random: &mut Random, place: usize) -> f64 {
    if place < SPECIAL.len() {
        return f64::from_bits(SPECIAL[place]);
    }
    let bits = random.next();
    match place % 8 {
        0 | 1 => f64::from_bits(bits),
        2 | 3 => f64::from_bits(bits & !(1 << 63)),
        // subnormal
        4 => f64::from_bits((bits & ((1 << 52) - 1)) >> random.below(52)),
        // near 1 and 2, where both halves of the exponents meet
        5 => f64::from_bits((0x3ff0 + bits % 32) << 48 | (bits >> 16)),
        // the square of a short number, and the floats beside it
        6 => {
            let short = ((bits >> 38) | 1 << 25) as f64;
            let square = (short * short).to_bits();
            f64::from_bits(square + random.below(3) as u64 - 1)
        }
        // near a midpoint between roots
        _ => {
            let odd = (((bits >> 11) | 1 << 52) as f64) + 0.5;
            let square = (odd * odd).to_bits();
            f64::from_bits(square + random.below(5) as u64 - 2)
        }
    }
}

/// The fields that are filled, with the style that makes most calls accepted.
const FIELDS: [(Part, Style); 10] = [
    (Part::Diagonal, Style::Positive),
    (Part::Responses, Style::Positive),
    (Part::Pressure, Style::Ordinary),
    (Part::Velocity, Style::Ordinary),
    (Part::Gradient, Style::Ordinary),
    (Part::Walls, Style::Ordinary),
    (Part::Predicted, Style::Ordinary),
    (Part::Coefficients, Style::Positive),
    (Part::Correction, Style::Ordinary),
    (Part::Flux, Style::Ordinary),
];

/// Fills every field: mostly with ordinary numbers, in some fields with wide ones, in few with one or two
/// of any kind, in very few with any kind throughout. On linked pairs given fluxes are often opposite and
/// given coefficients equal. The values of faces come from a sequence of their own.
pub fn fill(random: &mut Random, lent: &mut Lent) {
    let calm = random.chance(1, 2);
    for (part, usual) in FIELDS {
        fill_field(random, lent, part, usual, calm);
    }
    let mut apart = random.apart();
    fill_field(&mut apart, lent, Part::FaceValues, Style::Ordinary, calm);
    mirror(random, lent);
    if random.chance(1, 6) {
        mark(random, lent, Part::Walls, |slices, face| {
            slices.adjacency[2 * face + 1] == 0
        });
    }
    if random.chance(1, 2) {
        mark(random, lent, Part::Predicted, |slices, face| {
            slices.adjacency[2 * face + 1] == 0 && slices.codes[2 * face..2 * face + 2] == [2, 0]
        });
    }
}

fn fill_field(random: &mut Random, lent: &mut Lent, part: Part, usual: Style, calm: bool) {
    let length = lent.due(part).expect("a count of a built mesh");
    let style = match (random.below(16), usual) {
        (0 | 1, Style::Ordinary) => Style::Small,
        (2, Style::Positive) if !calm => Style::WidePositive,
        (2, _) if !calm => Style::Wide,
        (3, _) if !calm && random.chance(1, 3) => Style::Wild,
        _ => usual,
    };
    let mut numbers: Vec<f64> = (0..length).map(|_| float(random, style)).collect();
    if !calm && length > 0 && random.chance(1, 8) {
        for _ in 0..random.between(1, 2) {
            let at = random.below(length);
            numbers[at] = f64::from_bits(random.pick(&SPECIAL));
        }
    }
    *lent.slices.floats_mut(part) = numbers;
}

/// Puts a number of any kind, often a NaN with a payload, on one of the faces where a call hands it on as
/// it is.
fn mark(
    random: &mut Random,
    lent: &mut Lent,
    part: Part,
    is_handed_on: impl Fn(&Slices, usize) -> bool,
) {
    let faces: Vec<usize> = (0..lent.counts.faces)
        .filter(|&face| is_handed_on(&lent.slices, face))
        .collect();
    if faces.is_empty() {
        return;
    }
    let face = random.pick(&faces);
    lent.slices.floats_mut(part)[face] = match random.chance(2, 3) {
        true => nan(random),
        false => float(random, Style::Wild),
    };
}

/// A NaN of either sign with any payload.
fn nan(random: &mut Random) -> f64 {
    let bits = random.next() | 0x7ff0_0000_0000_0001;
    f64::from_bits(bits)
}

fn mirror(random: &mut Random, lent: &mut Lent) {
    if random.chance(1, 4) {
        return;
    }
    for face in 0..lent.counts.faces {
        if let Some(peer) = lent.slices.codes[2 * face + 1].checked_sub(1) {
            if face < peer {
                lent.slices.walls[peer] = -lent.slices.walls[face];
                lent.slices.predicted[peer] = -lent.slices.predicted[face];
                lent.slices.coefficients[peer] = lent.slices.coefficients[face];
            }
        }
    }
}

/// Gives every NaN the one pattern that a reading program can make.
pub fn canonical(slices: &mut Slices) {
    for part in Part::ALL {
        if let SliceMut::Float(numbers) = slices.slice_mut(part) {
            for number in numbers.iter_mut().filter(|number| number.is_nan()) {
                *number = f64::from_bits(0x7ff8_0000_0000_0000);
            }
        }
    }
}
