//! Lists: `N ( ... )`, with or without the number before it; of numbers also `N{x}`, for N times x.

use super::header::header;
use super::tokens::{Token, Tokens};
use crate::mistake::{quoted, AtLine, Mistake};
use crate::number::index;
use crate::MOST;
use engine::Vec3;

/// The elements of a list, each with its line.
pub type List<T> = Vec<(usize, T)>;

/// Reads a file that has a header and one list, by `read`. `what` says what is listed.
pub fn file<'a, T>(
    text: &'a str,
    what: &str,
    read: impl FnOnce(&mut Tokens<'a>) -> Result<List<T>, Mistake>,
) -> Result<List<T>, Mistake> {
    let mut tokens = Tokens::of(text);
    header(&mut tokens)?;
    let list = read(&mut tokens)?;
    match tokens.next()? {
        None => Ok(list),
        Some(spot) => Err(spot.unlike(&format!("nothing after the list of {what}"))),
    }
}

/// Reads a list.
pub fn list<'a, T>(
    tokens: &mut Tokens<'a>,
    what: &str,
    element: impl Fn(&mut Tokens<'a>) -> Result<T, Mistake>,
) -> Result<List<T>, Mistake> {
    let count = count(tokens, what)?;
    listed(tokens, what, count, element)
}

/// Reads a list of cells, or one cell and how often it stands there.
pub fn cells(tokens: &mut Tokens<'_>, what: &str) -> Result<List<usize>, Mistake> {
    let count = count(tokens, what)?;
    let cell = |tokens: &mut Tokens<'_>| label(tokens, "cell");
    match (tokens.peek()?, count) {
        (Some(spot), Some(count)) if spot.token == Token::Mark('{') => {
            tokens.next()?;
            let one = cell(tokens)?;
            tokens.mark('}', "`}` after the one number of a list `N{x}`")?;
            Ok(vec![(spot.line, one); count])
        }
        _ => listed(tokens, what, count, cell),
    }
}

/// The list after its number, which has to be right.
fn listed<'a, T>(
    tokens: &mut Tokens<'a>,
    what: &str,
    count: Option<usize>,
    element: impl Fn(&mut Tokens<'a>) -> Result<T, Mistake>,
) -> Result<List<T>, Mistake> {
    let line = tokens.mark('(', &format!("a list of {what}, as `N ( ... )`"))?;
    let list = elements(tokens, what, element)?;
    match count {
        Some(count) if count != list.len() => {
            let found = list.len();
            let reason = format!("the list is said to have {count} {what} and has {found}");
            Err(Mistake::new(line, reason))
        }
        _ => Ok(list),
    }
}

/// The number before a list, where there is one.
fn count(tokens: &mut Tokens<'_>, what: &str) -> Result<Option<usize>, Mistake> {
    let Some(spot) = tokens.peek()? else {
        return Ok(None);
    };
    let Token::Word(word) = spot.token else {
        return Ok(None);
    };
    tokens.next()?;
    let is_number = word.bytes().all(|byte| byte.is_ascii_digit());
    match word.parse::<usize>() {
        Ok(count) if is_number && count <= MOST => Ok(Some(count)),
        _ if is_number => {
            let reason = format!(
                "the list has {} {what}, and at most {MOST} are taken",
                quoted(word)
            );
            Err(Mistake::new(spot.line, reason))
        }
        _ => Err(spot.unlike(&format!("the number of {what}"))),
    }
}

/// The elements up to the parenthesis that ends the list.
fn elements<'a, T>(
    tokens: &mut Tokens<'a>,
    what: &str,
    element: impl Fn(&mut Tokens<'a>) -> Result<T, Mistake>,
) -> Result<List<T>, Mistake> {
    let mut list = Vec::new();
    loop {
        let Some(spot) = tokens.peek()? else {
            let reason = format!("the file ends within its list of {what}: expected `)`");
            return Err(Mistake::new(tokens.line(), reason));
        };
        if spot.token == Token::Mark(')') {
            tokens.next()?;
            return Ok(list);
        }
        if list.len() == MOST {
            let reason = format!("the list has over {MOST} {what}, the most that are taken");
            return Err(Mistake::new(spot.line, reason));
        }
        list.push((spot.line, element(tokens)?));
    }
}

/// A point, `(x y z)`.
pub fn point(tokens: &mut Tokens<'_>) -> Result<Vec3, Mistake> {
    const POINT: &str = "a point, as `(x y z)`";
    tokens.mark('(', POINT)?;
    let mut point = [0.0; 3];
    for x in &mut point {
        let (line, word) = tokens.word(POINT)?;
        *x = match word.parse::<f64>() {
            Ok(number) if number.is_finite() => number,
            _ => {
                let reason = format!(
                    "expected a finite number in a point, found {}",
                    quoted(word)
                );
                return Err(Mistake::new(line, reason));
            }
        };
    }
    tokens.mark(')', "`)` after the three numbers of a point")?;
    Ok(point)
}

/// A face, as `4(0 1 2 3)`.
pub fn face(tokens: &mut Tokens<'_>) -> Result<Vec<usize>, Mistake> {
    let points = list(tokens, "points", |tokens| label(tokens, "point"))?;
    Ok(points.into_iter().map(|(_, point)| point).collect())
}

/// The number of a cell, a face or a point.
pub fn label(tokens: &mut Tokens<'_>, what: &str) -> Result<usize, Mistake> {
    let (line, word) = tokens.word(&format!("the number of a {what}"))?;
    index(word, what).at(line)
}
