//! Items: lines that begin with a number, a range such as `3-17`, or several of these with commas between.

use crate::entries::Entry;
use crate::mistake::{AtLine, Mistake};
use crate::number::index;
use std::collections::BTreeMap;

/// What stands after the number of an item.
#[derive(Clone, Copy, Debug)]
pub struct Item<'a> {
    pub line: usize,
    pub words: &'a [&'a str],
}

/// The items of an entry by their numbers.
pub type Items<'a> = BTreeMap<usize, Item<'a>>;

/// The items of an entry, each number once. `what` says what they number.
pub fn items<'a>(entry: &'a Entry<'a>, what: &str) -> Result<Items<'a>, Mistake> {
    let mut items = Items::new();
    for line in &entry.items {
        let item = Item {
            line: line.number,
            words: &line.words[1..],
        };
        for part in line.words[0].split(',') {
            let (first, last) = range(part, what).at(line.number)?;
            for at in first..=last {
                insert(&mut items, at, item, what)?;
            }
        }
    }
    Ok(items)
}

fn insert<'a>(items: &mut Items<'a>, at: usize, item: Item<'a>, what: &str) -> Result<(), Mistake> {
    match items.insert(at, item) {
        None => Ok(()),
        Some(first) => {
            let reason = format!("{what} {at} is given twice, first on line {}", first.line);
            Err(Mistake::new(item.line, reason))
        }
    }
}

/// The first and the last number of `3` or of `3-17`.
fn range(part: &str, what: &str) -> Result<(usize, usize), String> {
    let Some((first, last)) = part.split_once('-') else {
        let at = index(part, what)?;
        return Ok((at, at));
    };
    let (first, last) = (index(first, what)?, index(last, what)?);
    if first > last {
        return Err(format!(
            "the range `{part}` runs backwards: write `{last}-{first}`"
        ));
    }
    Ok((first, last))
}

/// The items as a list without a gap, from 0 to the highest.
pub fn all<'a>(entry: &'a Entry<'a>, what: &str) -> Result<Vec<Item<'a>>, Mistake> {
    entry.bare()?;
    let items = items(entry, what)?;
    let gap = items.iter().enumerate().find(|(due, (at, _))| due != *at);
    match gap {
        None => Ok(items.into_values().collect()),
        Some((due, (at, item))) => {
            let reason = format!(
                "{what} {at} is given and {what} {due} is not: numbers run from 0 without a gap"
            );
            Err(Mistake::new(item.line, reason))
        }
    }
}

/// The items as a list without a gap, each on a line of its own: what can be long is not repeated.
pub fn each<'a>(entry: &'a Entry<'a>, what: &str) -> Result<Vec<Item<'a>>, Mistake> {
    for line in &entry.items {
        index(line.words[0], what).at(line.number)?;
    }
    all(entry, what)
}

/// Sees that an item's number is one of the mesh.
pub fn within(at: usize, count: usize, what: &str) -> Result<(), String> {
    if at < count {
        return Ok(());
    }
    Err(match count {
        0 => format!("there is no {what} {at}: the mesh has no {what}"),
        _ => format!(
            "there is no {what} {at}: the mesh has {what}s 0 to {}",
            count - 1
        ),
    })
}
