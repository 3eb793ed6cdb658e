//! Numbers as text: decimals, and the 16 hexadecimal digits of a binary64.

use crate::mistake::quoted;
use crate::MOST;

/// Reads a number. Exactly 16 hexadecimal digits are the bits of a binary64; anything else is a decimal, rounded
/// to the nearest, ties to even. `inf`, `infinity` and `nan` are numbers too, in any case and with a sign. A
/// decimal beyond the largest binary64 is not read as an infinity.
///
/// # Errors
///
/// A sentence that says what was expected.
pub fn number(word: &str) -> Result<f64, String> {
    if let Some(bits) = pattern(word) {
        return Ok(f64::from_bits(bits));
    }
    match word.parse::<f64>() {
        Ok(x) if x.is_infinite() && word.contains(|c: char| c.is_ascii_digit()) => Err(format!(
            "{} is beyond the largest binary64: write `inf` where infinity is meant",
            quoted(word)
        )),
        Ok(x) => Ok(x),
        Err(_) => Err(format!(
            "expected a number, found {}{}",
            quoted(word),
            hint(word)
        )),
    }
}

/// The bits that exactly 16 hexadecimal digits stand for.
fn pattern(word: &str) -> Option<u64> {
    let is_pattern = word.len() == 16 && word.bytes().all(|byte| byte.is_ascii_hexdigit());
    is_pattern
        .then(|| u64::from_str_radix(word, 16).ok())
        .flatten()
}

/// What may have been meant by a word that is no number.
fn hint(word: &str) -> String {
    if word.replace(',', ".").parse::<f64>().is_ok() {
        return ": a decimal has a point, not a comma".to_string();
    }
    if word
        .replace(['\u{2212}', '\u{2013}'], "-")
        .parse::<f64>()
        .is_ok()
    {
        return ": its minus is another sign than `-`".to_string();
    }
    let digits = word.strip_prefix("0x").unwrap_or(word);
    if !digits.is_empty() && digits.bytes().all(|byte| byte.is_ascii_hexdigit()) {
        let count = digits.len();
        return format!(
            ": bits are 16 hexadecimal digits and no more, these are {count} digits{}",
            if digits == word { "" } else { " after `0x`" }
        );
    }
    ": a decimal, or 16 hexadecimal digits as bits".to_string()
}

/// Reads the number of a cell, a face or a point, of which there can be [`MOST`].
pub(crate) fn index(word: &str, what: &str) -> Result<usize, String> {
    if word.is_empty() || !word.bytes().all(|byte| byte.is_ascii_digit()) {
        return Err(format!(
            "expected the number of a {what}, found {}",
            quoted(word)
        ));
    }
    match word.parse::<usize>() {
        Ok(index) if index < MOST => Ok(index),
        _ => Err(format!(
            "no {what} has the number {}: at most 65535 are taken, from 0 to {}",
            quoted(word),
            MOST - 1
        )),
    }
}

/// The 16 lower-case hexadecimal digits of a binary64.
pub fn bits(x: f64) -> String {
    format!("{:016x}", x.to_bits())
}

/// The shortest decimal that is read back as the same binary64; a NaN's payload is not shown.
pub fn decimal(x: f64) -> String {
    let text = format!("{x:?}");
    match text.strip_suffix(".0") {
        Some(whole) if pattern(whole).is_none() => whole.to_string(),
        _ => text,
    }
}

/// Whether two numbers count as the same: the same bits, or both a NaN.
pub fn is_same(a: f64, b: f64) -> bool {
    a.to_bits() == b.to_bits() || (a.is_nan() && b.is_nan())
}

/// How many steps from one binary64 to the next lie between two numbers; none where one is a NaN. The two zeros
/// are 0 apart.
pub fn units_apart(a: f64, b: f64) -> Option<u64> {
    if a.is_nan() || b.is_nan() {
        return None;
    }
    let [a, b] = [a, b].map(|x| {
        let magnitude = i128::from(x.abs().to_bits());
        if x.is_sign_negative() {
            -magnitude
        } else {
            magnitude
        }
    });
    u64::try_from((a - b).abs()).ok()
}

#[cfg(test)]
mod tests {
    use super::*;

    #[test]
    fn sixteen_hexadecimal_digits_are_bits() {
        assert_eq!(number("3ff0000000000000"), Ok(1.0));
        assert_eq!(number("BFF0000000000000"), Ok(-1.0));
        assert_eq!(number("0000000000000001"), Ok(5.0e-324));
        assert_eq!(number("8000000000000000").unwrap().to_bits(), 1 << 63);
        assert_eq!(
            number("7ff8000000000123").unwrap().to_bits(),
            0x7ff8000000000123
        );
        assert_eq!(
            number("1234567890123456").unwrap().to_bits(),
            0x1234567890123456
        );
        assert_eq!(number("123456789012345"), Ok(123456789012345.0));
        assert_eq!(number("1234567890123456.0"), Ok(1234567890123456.0));
    }

    #[test]
    fn anything_else_is_a_decimal() {
        assert_eq!(number("0.1"), Ok(0.1));
        assert_eq!(number("-2.5e-3"), Ok(-0.0025));
        assert_eq!(number("+7"), Ok(7.0));
        assert_eq!(number(".5"), Ok(0.5));
        assert_eq!(number("-0").unwrap().to_bits(), 1 << 63);
        assert_eq!(number("1e-400"), Ok(0.0));
        // 1 + 2^-53, a tie, goes to the even neighbour
        assert_eq!(
            number("1.00000000000000011102230246251565404236316680908203125"),
            Ok(1.0)
        );
        assert_eq!(number("inf"), Ok(f64::INFINITY));
        assert_eq!(number("-Infinity"), Ok(f64::NEG_INFINITY));
        assert!(number("NaN").unwrap().is_nan());
    }

    #[test]
    fn what_is_no_number_is_told() {
        let told = |word| number(word).unwrap_err();
        assert_eq!(
            told("0,5"),
            "expected a number, found `0,5`: a decimal has a point, not a comma"
        );
        assert_eq!(
            told("3ff00000000000ab0"),
            "expected a number, found `3ff00000000000ab0`: bits are 16 hexadecimal digits and no more, these are 17 digits"
        );
        assert!(told("03ffa000000000000").ends_with("these are 17 digits"));
        assert_eq!(
            told("0x3ff0000000000000"),
            "expected a number, found `0x3ff0000000000000`: bits are 16 hexadecimal digits and no more, these are 16 digits after `0x`"
        );
        assert_eq!(
            told("\u{2212}1.5"),
            "expected a number, found `\u{2212}1.5`: its minus is another sign than `-`"
        );
        assert_eq!(
            told("none"),
            "expected a number, found `none`: a decimal, or 16 hexadecimal digits as bits"
        );
        assert_eq!(
            told("1e309"),
            "`1e309` is beyond the largest binary64: write `inf` where infinity is meant"
        );
    }

    #[test]
    fn decimals_are_read_back() {
        let third = 1.0 / 3.0;
        let sixteen_digits = 1234567890123456.0;
        for x in [
            0.1,
            -0.0,
            1.0e300,
            5.0e-324,
            third,
            f64::MAX,
            sixteen_digits,
            f64::INFINITY,
        ] {
            assert_eq!(number(&decimal(x)).unwrap().to_bits(), x.to_bits(), "{x:?}");
            assert_eq!(number(&bits(x)).unwrap().to_bits(), x.to_bits(), "{x:?}");
        }
        assert_eq!(decimal(1.0), "1");
        assert_eq!(decimal(-0.0), "-0");
    }

    #[test]
    fn nans_are_the_same_and_zeros_are_not() {
        assert!(is_same(
            f64::from_bits(0x7ff8000000000001),
            f64::from_bits(0xfff0000000000002)
        ));
        assert!(!is_same(0.0, -0.0));
        assert!(!is_same(0.0, f64::NAN));
        assert!(is_same(-0.0, -0.0));
    }

    #[test]
    fn units_count_the_floats_between() {
        assert_eq!(
            units_apart(1.0, f64::from_bits(0x3ff0000000000003)),
            Some(3)
        );
        assert_eq!(units_apart(1.0, 2.0), Some(1 << 52));
        assert_eq!(units_apart(f64::from_bits(2), -f64::from_bits(1)), Some(3));
        assert_eq!(units_apart(0.0, -0.0), Some(0));
        assert_eq!(units_apart(f64::MAX, f64::INFINITY), Some(1));
        assert_eq!(units_apart(f64::NAN, 1.0), None);
        assert_eq!(
            units_apart(f64::INFINITY, f64::NEG_INFINITY),
            Some(0xffe0000000000000)
        );
    }
}
