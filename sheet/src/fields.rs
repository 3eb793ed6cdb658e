//! Fields: something for every cell or every face.

use crate::entries::Entry;
use crate::items::{items, within, Items};
use crate::mistake::{quoted, AtLine, Mistake};
use crate::number::number;
use engine::{Dimension, Mesh, Vec3};

/// What a field is over.
#[derive(Clone, Copy, Debug)]
pub struct Place {
    /// `cell` or `face`.
    pub what: &'static str,
    /// How many the mesh has.
    pub count: usize,
    /// What is told of one that lacks a value; nothing where each has to have one.
    pub which: &'static str,
}

impl Place {
    /// All cells.
    pub fn cells(mesh: &Mesh) -> Self {
        Self {
            what: "cell",
            count: mesh.cell_count(),
            which: "",
        }
    }

    /// All faces.
    pub fn faces(mesh: &Mesh) -> Self {
        Self {
            what: "face",
            count: mesh.face_count(),
            which: "",
        }
    }
}

/// A value for each place: `NAME uniform VALUE`, or items below `NAME`, or items below `NAME default VALUE` and
/// that value at the places that no item names. Where no default is written, `fallback` has the value of such a
/// place, and none where an item has to be given.
pub fn field<T: Clone>(
    entry: &Entry<'_>,
    place: Place,
    fallback: impl Fn(usize) -> Option<T>,
    read: impl Fn(&[&str]) -> Result<T, String>,
) -> Result<Vec<T>, Mistake> {
    let name = entry.name;
    match entry.arguments.split_first() {
        None => filled(entry, place, fallback, read),
        Some((&"default", value)) => {
            let value = read(value).at(entry.line)?;
            filled(entry, place, |_| Some(value.clone()), read)
        }
        Some((&"uniform", value)) => {
            if let Some(item) = entry.items.first() {
                let reason = format!("`{name}` is uniform and has no items: write `{name} default VALUE` to give some their own");
                return Err(Mistake::new(item.number, reason));
            }
            Ok(vec![read(value).at(entry.line)?; place.count])
        }
        Some((word, _)) => {
            let found = quoted(word);
            let reason =
                format!("expected `uniform`, `default` or nothing after `{name}`, found {found}");
            Err(Mistake::new(entry.line, reason))
        }
    }
}

/// The items' values, and the fallback's elsewhere.
fn filled<T: Clone>(
    entry: &Entry<'_>,
    place: Place,
    fallback: impl Fn(usize) -> Option<T>,
    read: impl Fn(&[&str]) -> Result<T, String>,
) -> Result<Vec<T>, Mistake> {
    let items = items(entry, place.what)?;
    if let Some((&at, item)) = items.range(place.count..).next() {
        within(at, place.count, place.what).at(item.line)?;
    }
    let mut values: Vec<Option<T>> = (0..place.count).map(&fallback).collect();
    complete(entry, place, &items, &values)?;
    let mut last: Option<(usize, T)> = None;
    for (&at, item) in &items {
        let value = match last.take() {
            Some((line, value)) if line == item.line => value,
            _ => read(item.words).at(item.line)?,
        };
        last = Some((item.line, value.clone()));
        values[at] = Some(value);
    }
    Ok(values.into_iter().flatten().collect())
}

/// Sees that every place without a value has an item.
fn complete<T>(
    entry: &Entry<'_>,
    place: Place,
    items: &Items<'_>,
    values: &[Option<T>],
) -> Result<(), Mistake> {
    let asked = || (0..place.count).filter(|&at| values[at].is_none());
    let missing = asked().find(|at| !items.contains_key(at));
    match missing {
        None => Ok(()),
        Some(at) => {
            let (name, Place { what, which, .. }) = (entry.name, place);
            let given = asked().filter(|at| items.contains_key(at)).count();
            let reason = format!(
                "`{name}` has no value for {what} {at}{which}: it has {given} of {}, and no default",
                asked().count()
            );
            Err(Mistake::new(entry.line, reason))
        }
    }
}

/// A single number.
pub fn scalar(words: &[&str]) -> Result<f64, String> {
    match words {
        [word] => number(word),
        _ => Err(format!("expected one number, found {}", words.len())),
    }
}

/// A vector: two numbers in 2D, three in 3D.
pub fn vector(dimension: Dimension, words: &[&str]) -> Result<Vec3, String> {
    match (dimension, words) {
        (Dimension::Two, [x, y]) => Ok([number(x)?, number(y)?, 0.0]),
        (Dimension::Three, [x, y, z]) => Ok([number(x)?, number(y)?, number(z)?]),
        _ => Err(format!(
            "expected a vector of {} numbers, found {}",
            width(dimension),
            words.len()
        )),
    }
}

/// How many numbers a vector has.
pub fn width(dimension: Dimension) -> usize {
    match dimension {
        Dimension::Two => 2,
        Dimension::Three => 3,
    }
}
