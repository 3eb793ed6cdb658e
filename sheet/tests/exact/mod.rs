//! Whole numbers of 2^-1127 in 40 words, two's complement, for sums without rounding. They share nothing with
//! the program.
#![allow(dead_code)]

const WORDS: usize = 40;

#[derive(Clone, Copy, Debug, PartialEq, Eq)]
pub struct Exact([u64; WORDS]);

impl Exact {
    pub const ZERO: Self = Self([0; WORDS]);

    /// The exact value of a finite float.
    pub fn of(x: f64) -> Self {
        assert!(x.is_finite());
        let bits = x.to_bits();
        let exponent = (bits >> 52 & 0x7ff) as usize;
        let fraction = bits & ((1 << 52) - 1);
        // 2^-1074 is 2^53 units
        let (significand, shift) = match exponent {
            0 => (fraction, 53),
            _ => (fraction | 1 << 52, exponent - 1 + 53),
        };
        let mut words = [0; WORDS];
        let wide = u128::from(significand) << (shift % 64);
        words[shift / 64] = wide as u64;
        words[shift / 64 + 1] = (wide >> 64) as u64;
        let magnitude = Self(words);
        if x.is_sign_negative() {
            magnitude.negated()
        } else {
            magnitude
        }
    }

    /// From decimal digits.
    pub fn parse(digits: &str) -> Self {
        let mut value = Self::ZERO;
        for digit in digits.bytes() {
            assert!(digit.is_ascii_digit());
            value = value.times(10).plus(Self::small(u64::from(digit - b'0')));
        }
        value
    }

    fn small(n: u64) -> Self {
        let mut words = [0; WORDS];
        words[0] = n;
        Self(words)
    }

    pub fn plus(self, other: Self) -> Self {
        let mut words = [0; WORDS];
        let mut carry = 0;
        for (at, word) in words.iter_mut().enumerate() {
            let sum = u128::from(self.0[at]) + u128::from(other.0[at]) + carry;
            *word = sum as u64;
            carry = sum >> 64;
        }
        Self(words)
    }

    pub fn negated(self) -> Self {
        Self(self.0.map(|word| !word)).plus(Self::small(1))
    }

    pub fn minus(self, other: Self) -> Self {
        self.plus(other.negated())
    }

    pub fn is_negative(self) -> bool {
        self.0[WORDS - 1] >> 63 == 1
    }

    pub fn magnitude(self) -> Self {
        if self.is_negative() {
            self.negated()
        } else {
            self
        }
    }

    pub fn times(self, factor: u64) -> Self {
        let mut words = [0; WORDS];
        let mut carry = 0;
        for (at, word) in words.iter_mut().enumerate() {
            let product = u128::from(self.0[at]) * u128::from(factor) + carry;
            *word = product as u64;
            carry = product >> 64;
        }
        Self(words)
    }

    /// The product of two that are not negative, where it fits.
    pub fn product(self, other: Self) -> Self {
        let mut sum = Self::ZERO;
        for (at, &word) in other.0.iter().enumerate().filter(|(_, &word)| word != 0) {
            let mut words = [0; WORDS];
            words[at..].copy_from_slice(&self.times(word).0[..WORDS - at]);
            sum = sum.plus(Self(words));
        }
        sum
    }

    /// Over 2^53, where that leaves no rest.
    pub fn over_two_to_53(self) -> Self {
        assert_eq!(self.0[0] & ((1 << 53) - 1), 0);
        let mut words = [0; WORDS];
        for (at, word) in words.iter_mut().enumerate() {
            let above = self.0.get(at + 1).copied().unwrap_or(0);
            *word = self.0[at] >> 53 | above << 11;
        }
        Self(words)
    }

    pub fn at_most(self, other: Self) -> bool {
        !other.minus(self).is_negative()
    }
}
