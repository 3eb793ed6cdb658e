//! Whole numbers of any size.

use std::cmp::Ordering;
use std::fmt;
use std::ops::{Add, Neg, Sub};

/// A whole number of any size, with a sign.
#[derive(Clone, Debug, Default, PartialEq, Eq, Hash)]
pub struct Whole {
    negative: bool,
    /// From the lowest word up, without a zero at the end; zero has none and is not negative.
    words: Vec<u64>,
}

impl Whole {
    /// Zero.
    pub fn zero() -> Self {
        Self::default()
    }

    /// Whether it is below zero.
    pub fn is_negative(&self) -> bool {
        self.negative
    }

    /// Whether it is zero.
    pub fn is_zero(&self) -> bool {
        self.words.is_empty()
    }

    /// Without its sign.
    pub fn magnitude(&self) -> Self {
        Self::of(false, self.words.clone())
    }

    /// Times 2 to the `places`.
    pub fn shifted(&self, places: u32) -> Self {
        let (jump, rest) = ((places / 64) as usize, places % 64);
        let mut words = vec![0; jump];
        let mut carry = 0;
        for &word in &self.words {
            let wide = u128::from(word) << rest;
            words.push(wide as u64 | carry);
            carry = (wide >> 64) as u64;
        }
        words.push(carry);
        Self::of(self.negative, words)
    }

    /// So many times it.
    pub fn times(&self, factor: u64) -> Self {
        let mut words = Vec::with_capacity(self.words.len() + 1);
        let mut carry = 0;
        for &word in &self.words {
            let product = u128::from(word) * u128::from(factor) + carry;
            words.push(product as u64);
            carry = product >> 64;
        }
        words.push(carry as u64);
        Self::of(self.negative, words)
    }

    /// How often 2 divides it; none of zero.
    pub(crate) fn twos(&self) -> Option<u32> {
        let low = self.words.iter().position(|&word| word != 0)?;
        Some(64 * low as u32 + self.words[low].trailing_zeros())
    }

    /// Its magnitude over 2 to the `places`, as a whole number and the rest.
    pub(crate) fn split(&self, places: u32) -> (Self, Self) {
        let (jump, bits) = ((places / 64) as usize, places % 64);
        let word = |at: usize| self.words.get(at).copied().unwrap_or(0);
        let whole = (jump..self.words.len())
            .map(|at| {
                let wide = u128::from(word(at + 1)) << 64 | u128::from(word(at));
                (wide >> bits) as u64
            })
            .collect();
        let mut rest: Vec<u64> = (0..=jump).map(word).collect();
        rest[jump] &= (1 << bits) - 1;
        (Self::of(false, whole), Self::of(false, rest))
    }

    fn of(negative: bool, mut words: Vec<u64>) -> Self {
        while words.last() == Some(&0) {
            words.pop();
        }
        Self {
            negative: negative && !words.is_empty(),
            words,
        }
    }

    /// Divides the words by a number and gives the rest.
    fn divide(words: &mut Vec<u64>, divisor: u64) -> u64 {
        let mut rest = 0;
        for word in words.iter_mut().rev() {
            let wide = u128::from(rest) << 64 | u128::from(*word);
            *word = (wide / u128::from(divisor)) as u64;
            rest = (wide % u128::from(divisor)) as u64;
        }
        while words.last() == Some(&0) {
            words.pop();
        }
        rest
    }
}

impl From<u64> for Whole {
    fn from(number: u64) -> Self {
        Self::of(false, vec![number])
    }
}

impl Neg for Whole {
    type Output = Whole;

    fn neg(self) -> Whole {
        Whole::of(!self.negative, self.words)
    }
}

impl Add for &Whole {
    type Output = Whole;

    fn add(self, other: &Whole) -> Whole {
        if self.negative == other.negative {
            return Whole::of(self.negative, sum(&self.words, &other.words));
        }
        match compare(&self.words, &other.words) {
            Ordering::Less => Whole::of(other.negative, difference(&other.words, &self.words)),
            _ => Whole::of(self.negative, difference(&self.words, &other.words)),
        }
    }
}

impl Sub for &Whole {
    type Output = Whole;

    fn sub(self, other: &Whole) -> Whole {
        self + &-other.clone()
    }
}

impl Ord for Whole {
    fn cmp(&self, other: &Self) -> Ordering {
        match (self.negative, other.negative) {
            (false, false) => compare(&self.words, &other.words),
            (true, true) => compare(&other.words, &self.words),
            (false, true) => Ordering::Greater,
            (true, false) => Ordering::Less,
        }
    }
}

impl PartialOrd for Whole {
    fn partial_cmp(&self, other: &Self) -> Option<Ordering> {
        Some(self.cmp(other))
    }
}

/// In decimal digits.
impl fmt::Display for Whole {
    fn fmt(&self, f: &mut fmt::Formatter<'_>) -> fmt::Result {
        let mut words = self.words.clone();
        let mut groups = Vec::new();
        while !words.is_empty() {
            groups.push(Whole::divide(&mut words, 10_u64.pow(19)));
        }
        let mut digits = groups.pop().unwrap_or(0).to_string();
        for group in groups.iter().rev() {
            digits += &format!("{group:019}");
        }
        f.pad_integral(!self.negative, "", &digits)
    }
}

fn compare(a: &[u64], b: &[u64]) -> Ordering {
    let lengths = a.len().cmp(&b.len());
    lengths.then_with(|| a.iter().rev().cmp(b.iter().rev()))
}

fn sum(a: &[u64], b: &[u64]) -> Vec<u64> {
    let mut words = Vec::with_capacity(a.len().max(b.len()) + 1);
    let mut carry = 0;
    for at in 0..a.len().max(b.len()) {
        let word = |words: &[u64]| u128::from(words.get(at).copied().unwrap_or(0));
        let sum = word(a) + word(b) + carry;
        words.push(sum as u64);
        carry = sum >> 64;
    }
    words.push(carry as u64);
    words
}

/// Of a larger number and a smaller one.
fn difference(larger: &[u64], smaller: &[u64]) -> Vec<u64> {
    let mut words = Vec::with_capacity(larger.len());
    let mut borrow = false;
    for (at, &word) in larger.iter().enumerate() {
        let (taken, first) = word.overflowing_sub(smaller.get(at).copied().unwrap_or(0));
        let (taken, second) = taken.overflowing_sub(u64::from(borrow));
        words.push(taken);
        borrow = first || second;
    }
    words
}
