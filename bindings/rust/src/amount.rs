//! Exact amounts.

use crate::whole::Whole;
use std::cmp::Ordering;
use std::fmt;

/// Of 2^-1074, the unit of which every finite binary64 is a whole number.
const FLOAT_PLACES: u32 = 1074;

/// An exact amount: a whole number of units of 2^-1074, or of 2^-1127 for a bound, which has a factor 2^-53.
///
/// It is shown as a decimal, with every digit; [`Amount::scientific`] shows fewer.
#[derive(Clone, Debug)]
pub struct Amount {
    whole: Whole,
    places: u32,
}

impl Amount {
    /// Zero, in units of 2^-1074.
    pub fn zero() -> Self {
        Self::units(Whole::zero())
    }

    /// So many units of 2^-1074.
    pub fn units(whole: Whole) -> Self {
        Self {
            whole,
            places: FLOAT_PLACES,
        }
    }

    /// The exact value of a float, where it is finite.
    pub fn of(x: f64) -> Option<Self> {
        let bits = x.to_bits();
        let exponent = (bits >> 52 & 0x7ff) as u32;
        let fraction = bits & ((1 << 52) - 1);
        let magnitude = match exponent {
            0 => Whole::from(fraction),
            0x7ff => return None,
            _ => Whole::from(fraction | 1 << 52).shifted(exponent - 1),
        };
        Some(Self::units(if x.is_sign_negative() {
            -magnitude
        } else {
            magnitude
        }))
    }

    /// How many units it has.
    pub fn whole(&self) -> &Whole {
        &self.whole
    }

    /// The unit is 2 to the minus this: 1074, or 1127 for a bound.
    pub fn places(&self) -> u32 {
        self.places
    }

    /// The exact sum.
    pub fn plus(&self, other: &Self) -> Self {
        let places = self.places.max(other.places);
        Self {
            whole: &self.at(places) + &other.at(places),
            places,
        }
    }

    /// The exact difference.
    pub fn minus(&self, other: &Self) -> Self {
        self.plus(&other.negated())
    }

    /// With the other sign.
    pub fn negated(&self) -> Self {
        Self {
            whole: -self.whole.clone(),
            places: self.places,
        }
    }

    /// Without its sign.
    pub fn magnitude(&self) -> Self {
        Self {
            whole: self.whole.magnitude(),
            places: self.places,
        }
    }

    /// So many times it, times 2^-53: from a sum of magnitudes to a bound.
    pub(crate) fn bound(&self, factor: u64) -> Self {
        Self {
            whole: self.whole.times(factor),
            places: self.places + 53,
        }
    }

    /// Rounded to so many significant digits, from 1 to 1500, with a power of ten, as `2.2204e-16`. A tie goes
    /// away from zero. No sum of floats has more digits.
    pub fn scientific(&self, digits: usize) -> String {
        let (whole, fraction) = self.digits();
        let all = whole.clone() + &fraction;
        let Some(first) = all.find(|digit| digit != '0') else {
            return "0".to_string();
        };
        let mut exponent = whole.len() as i64 - 1 - first as i64;
        let (mut kept, carried) = rounded(&all.as_bytes()[first..], digits.clamp(1, 1500));
        exponent += i64::from(carried);
        let sign = if self.whole.is_negative() { "-" } else { "" };
        let tail = kept.split_off(1);
        let point = if tail.is_empty() { "" } else { "." };
        format!("{sign}{kept}{point}{tail}e{exponent}")
    }

    /// The units of 2^-`places`, which are at least as fine as its own.
    fn at(&self, places: u32) -> Whole {
        self.whole.shifted(places - self.places)
    }

    /// The decimal digits before the point and those after it, of the magnitude.
    fn digits(&self) -> (String, String) {
        let (whole, rest) = self.whole.split(self.places);
        let Some(twos) = rest.twos() else {
            return (whole.to_string(), String::new());
        };
        // rest / 2^places is odd / 2^n, which is odd × 5^n / 10^n
        let n = self.places - twos;
        let mut scaled = rest.split(twos).0;
        for _ in 0..n {
            scaled = scaled.times(5);
        }
        (whole.to_string(), format!("{scaled:0n$}", n = n as usize))
    }
}

/// The first so many of a number's digits, rounded, and whether that made a digit more.
fn rounded(digits: &[u8], count: usize) -> (String, bool) {
    let mut kept: Vec<u8> = digits.iter().copied().take(count).collect();
    kept.resize(count, b'0');
    if digits.get(count).is_some_and(|&digit| digit >= b'5') {
        let nines = kept
            .iter()
            .rev()
            .take_while(|&&digit| digit == b'9')
            .count();
        kept[count - nines..].fill(b'0');
        match (count - nines).checked_sub(1) {
            Some(last) => kept[last] += 1,
            None => {
                kept[0] = b'1';
                return (kept.into_iter().map(char::from).collect(), true);
            }
        }
    }
    (kept.into_iter().map(char::from).collect(), false)
}

impl PartialEq for Amount {
    fn eq(&self, other: &Self) -> bool {
        self.cmp(other) == Ordering::Equal
    }
}

impl Eq for Amount {}

impl PartialOrd for Amount {
    fn partial_cmp(&self, other: &Self) -> Option<Ordering> {
        Some(self.cmp(other))
    }
}

impl Ord for Amount {
    fn cmp(&self, other: &Self) -> Ordering {
        let places = self.places.max(other.places);
        self.at(places).cmp(&other.at(places))
    }
}

/// As a decimal, with every digit.
impl fmt::Display for Amount {
    fn fmt(&self, f: &mut fmt::Formatter<'_>) -> fmt::Result {
        let (whole, fraction) = self.digits();
        let point = if fraction.is_empty() { "" } else { "." };
        let text = format!("{whole}{point}{fraction}");
        f.pad_integral(!self.whole.is_negative(), "", &text)
    }
}
