//! Copies of the gradients of Gauss that are written in another way, and copies of the port that are wrong about 12 and
//! about what comes before it.

use super::gauss::{
    all, beyond_link, distance, fixed, gathered, image_by, inner, neighbour, owner, scattered,
    sides, to_image, volumes, written, Scatter, Side, Writing, PLAIN, RIGHT,
};
use super::{highest_bad_link, Sham};
use crate::calls;
use crate::checks;
use crate::entry::Entry;
use crate::lent::{Lent, Slices, FACE_WIDTH, OTHER};
use crate::port::Answer;

/// A writing with another part.
macro_rules! miswritten {
    ($name:literal, $entry:ident, $part:ident, $how:expr) => {
        Sham {
            name: $name,
            entry: Entry::$entry,
            fault: |lent, before, outputs, answer| {
                const WRITING: Writing = Writing {
                    $part: $how,
                    ..RIGHT
                };
                written(Entry::$entry, &WRITING, lent, before, outputs).unwrap_or(answer)
            },
        }
    };
}

/// 12 where a check refuses that comes before it.
macro_rules! volume_before {
    ($name:literal, $entry:ident, $number:literal) => {
        Sham {
            name: $name,
            entry: Entry::$entry,
            fault: |lent, _, outputs, answer| match answer {
                Answer::Refused($number, _) => match volumes(lent).position(RIGHT.is_bad) {
                    Some(cell) => {
                        outputs.gradient.fill(0.0);
                        Answer::Refused(12, cell)
                    }
                    None => answer,
                },
                answer => answer,
            },
        }
    };
}

/// What the Rust answers where 3 alone refuses.
macro_rules! any_mesh {
    ($name:literal, $entry:ident) => {
        Sham {
            name: $name,
            entry: Entry::$entry,
            fault: |lent, before, outputs, answer| {
                let mut same = lent.clone();
                same.renumber(lent.counts.mesh);
                if answer != Answer::Refused(3, 0)
                    || checks::check(Entry::$entry, &same, before).is_some()
                {
                    return answer;
                }
                let outcome = calls::run(Entry::$entry, lent);
                *outputs = outcome.contents(Entry::$entry, before);
                outcome.answer()
            },
        }
    };
}

/// The outputs or the answer changed where a call is refused so.
macro_rules! misrefused {
    ($name:literal, $entry:ident, $numbers:pat, $change:expr) => {
        Sham {
            name: $name,
            entry: Entry::$entry,
            fault: |lent, before, outputs, answer| match answer {
                Answer::Refused($numbers, index) => {
                    let change: fn(&Lent, &Slices, &mut Slices, usize) -> Option<Answer> = $change;
                    change(lent, before, outputs, index).unwrap_or(answer)
                }
                answer => answer,
            },
        }
    };
}

/// A refusal of what is accepted, at the lowest index that meets the test.
macro_rules! refused {
    ($name:literal, $entry:ident, $number:literal, $found:expr) => {
        Sham {
            name: $name,
            entry: Entry::$entry,
            fault: |lent, _, outputs, answer| {
                let found: fn(&Lent, &Slices) -> Option<usize> = $found;
                if answer != Answer::Accepted {
                    return answer;
                }
                match found(lent, outputs) {
                    Some(index) => {
                        outputs.gradient.fill(0.0);
                        Answer::Refused($number, index)
                    }
                    None => answer,
                }
            },
        }
    };
}

fn is_bare(lent: &Lent, face: usize) -> bool {
    neighbour(lent, face).is_none() && lent.slices.codes[2 * face..2 * face + 2] == [0, 0]
}

pub const SHAMS: &[Sham] = &[
    highest_bad_link(Entry::PressureCouplingGradient),
    miswritten!(
        "an infinite volume refused",
        GaussGradientFromFaces,
        is_bad,
        |volume| volume <= 0.0 || volume.is_infinite()
    ),
    miswritten!(
        "a volume that is no number refused",
        PressureCouplingGradient,
        is_bad,
        |volume| volume <= 0.0 || volume.is_nan()
    ),
    miswritten!(
        "a volume that is no number refused",
        GaussGradientFromFaces,
        is_bad,
        |volume| volume <= 0.0 || volume.is_nan()
    ),
    miswritten!(
        "volume 0 accepted",
        PressureCouplingGradientWithoutConditions,
        is_bad,
        |volume| volume < 0.0
    ),
    miswritten!(
        "volume -0 accepted",
        GaussGradientFromFaces,
        is_bad,
        |volume| volume < 0.0 || volume.to_bits() == 0
    ),
    miswritten!(
        "a volume of any size below 0 accepted",
        GaussGradientFromFaces,
        is_bad,
        |volume| volume == 0.0
    ),
    miswritten!(
        "a subnormal volume refused",
        GaussGradientFromFaces,
        is_bad,
        |volume| volume < f64::MIN_POSITIVE
    ),
    miswritten!(
        "a subnormal volume below 0 taken for 0 and accepted",
        GaussGradientFromFaces,
        is_bad,
        |volume| volume == 0.0 || volume <= -f64::MIN_POSITIVE
    ),
    miswritten!(
        "-infinite volume accepted",
        PressureCouplingGradient,
        is_bad,
        |volume| volume <= 0.0 && volume.is_finite()
    ),
    miswritten!(
        "the test of volumes left out",
        GaussGradientFromFaces,
        is_bad,
        |_| false
    ),
    miswritten!(
        "the neighbour's sign",
        GaussGradientFromFaces,
        sums,
        |lent, values| all(
            lent,
            values,
            &Scatter {
                neighbour: 1.0,
                ..PLAIN
            }
        )
    ),
    miswritten!(
        "nothing taken from the neighbour",
        PressureCouplingGradient,
        sums,
        |lent, values| {
            let mut owners = lent.clone();
            owners
                .slices
                .adjacency
                .chunks_exact_mut(2)
                .for_each(|face| face[1] = 0);
            all(&owners, values, &PLAIN)
        }
    ),
    miswritten!("undivided", GaussGradientFromFaces, quotient, |sum, _| sum),
    miswritten!("undivided", PressureCouplingGradient, quotient, |sum, _| {
        sum
    }),
    miswritten!(
        "times the inverse of the volume",
        GaussGradientFromFaces,
        quotient,
        |sum, volume| sum * (1.0 / volume)
    ),
    miswritten!(
        "faces in reverse order",
        GaussGradientFromFaces,
        sums,
        |lent, values| scattered(lent, values, (0..lent.counts.faces).rev(), &PLAIN)
    ),
    miswritten!(
        "faces in the order of a cell's chain",
        GaussGradientFromFaces,
        sums,
        gathered
    ),
    miswritten!(
        "faces in the order of a cell's chain",
        PressureCouplingGradient,
        sums,
        gathered
    ),
    miswritten!(
        "faces with two cells first",
        GaussGradientFromFaces,
        sums,
        |lent, values| {
            let mut faces: Vec<usize> = (0..lent.counts.faces).collect();
            faces.sort_by_key(|&face| neighbour(lent, face).is_none());
            scattered(lent, values, faces.into_iter(), &PLAIN)
        }
    ),
    miswritten!(
        "the last face left out",
        PressureCouplingGradientWithoutConditions,
        sums,
        |lent, values| {
            let last = lent.counts.faces.saturating_sub(1);
            scattered(lent, values, 0..last, &PLAIN)
        }
    ),
    miswritten!(
        "sums from -0",
        GaussGradientFromFaces,
        sums,
        |lent, values| all(
            lent,
            values,
            &Scatter {
                start: -0.0,
                ..PLAIN
            }
        )
    ),
    miswritten!(
        "product and sum rounded once",
        GaussGradientFromFaces,
        sums,
        |lent, values| all(
            lent,
            values,
            &Scatter {
                add: |sum, area, value| area.mul_add(value, sum),
                ..PLAIN
            }
        )
    ),
    miswritten!(
        "a value 0 passed over",
        GaussGradientFromFaces,
        sums,
        |lent, values| {
            let faces = (0..lent.counts.faces).filter(|&face| values[face] != 0.0);
            scattered(lent, values, faces, &PLAIN)
        }
    ),
    miswritten!(
        "a link after the condition",
        PressureCouplingGradient,
        side,
        |entry, lent, face| {
            let first = inner(lent, face).or_else(|| fixed(entry, lent, face));
            sides(entry, lent, face, first, to_image)
        }
    ),
    miswritten!(
        "a fixed value at a face with two cells",
        PressureCouplingGradient,
        side,
        |entry, lent, face| {
            let first = match neighbour(lent, face) {
                Some(_) => fixed(entry, lent, face),
                None => None,
            };
            sides(entry, lent, face, first, to_image)
        }
    ),
    miswritten!(
        "a linked face by its condition alone",
        PressureCouplingGradient,
        side,
        |entry, lent, face| inner(lent, face)
            .or_else(|| fixed(entry, lent, face))
            .unwrap_or(Side::Nothing)
    ),
    miswritten!(
        "links looked at without conditions",
        PressureCouplingGradientWithoutConditions,
        side,
        |_, lent, face| inner(lent, face)
            .or_else(|| beyond_link(lent, face, to_image))
            .unwrap_or(Side::Nothing)
    ),
    miswritten!(
        "fixed values looked at without conditions",
        PressureCouplingGradientWithoutConditions,
        side,
        |_, lent, face| inner(lent, face)
            .or_else(|| fixed(Entry::PressureCouplingGradient, lent, face))
            .unwrap_or(Side::Nothing)
    ),
    miswritten!(
        "the image not translated",
        PressureCouplingGradient,
        side,
        |entry, lent, face| sides(entry, lent, face, None, |lent, face, peer| image_by(
            lent, face, peer, 0.0
        ))
    ),
    miswritten!(
        "the image translated the other way",
        PressureCouplingGradient,
        side,
        |entry, lent, face| sides(entry, lent, face, None, |lent, face, peer| image_by(
            lent, face, peer, -1.0
        ))
    ),
    miswritten!(
        "the distance that a linked face carries",
        PressureCouplingGradient,
        side,
        |entry, lent, face| sides(entry, lent, face, None, |lent, face, _| lent
            .slices
            .geometry[FACE_WIDTH * face + OTHER])
    ),
    miswritten!(
        "each pressure by its own distance",
        PressureCouplingGradient,
        between,
        |[own, other], [a, b]| (a * own + b * other) / (a + b)
    ),
    miswritten!(
        "each pressure by its own distance",
        PressureCouplingGradientWithoutConditions,
        between,
        |[own, other], [a, b]| (a * own + b * other) / (a + b)
    ),
    miswritten!(
        "the mean of two pressures",
        PressureCouplingGradientWithoutConditions,
        between,
        |[own, other], _| 0.5 * (own + other)
    ),
    miswritten!(
        "weights divided before they are used",
        PressureCouplingGradient,
        between,
        |[own, other], [a, b]| own * (b / (a + b)) + other * (a / (a + b))
    ),
    miswritten!(
        "the owner's and a part of the difference",
        PressureCouplingGradientWithoutConditions,
        between,
        |[own, other], [a, b]| own + a / (a + b) * (other - own)
    ),
    miswritten!(
        "the mean where distances add up to 0",
        PressureCouplingGradient,
        between,
        |pressures, [a, b]| match a + b == 0.0 {
            true => 0.5 * (pressures[0] + pressures[1]),
            false => (RIGHT.between)(pressures, [a, b]),
        }
    ),
    miswritten!(
        "0 where distances add up to 0",
        PressureCouplingGradientWithoutConditions,
        between,
        |pressures, [a, b]| match a + b == 0.0 {
            true => 0.0,
            false => (RIGHT.between)(pressures, [a, b]),
        }
    ),
    miswritten!(
        "0 without a condition",
        PressureCouplingGradient,
        alone,
        |lent, face, own| match lent.slices.codes[2 * face] {
            0 => 0.0,
            _ => own,
        }
    ),
    miswritten!(
        "0 at zero gradient",
        PressureCouplingGradient,
        alone,
        |lent, face, own| match lent.slices.codes[2 * face] {
            2 => 0.0,
            _ => own,
        }
    ),
    miswritten!(
        "the value beside another condition",
        PressureCouplingGradient,
        alone,
        |lent, face, _| lent.slices.values[4 * face]
    ),
    refused!(
        "no condition refused by 10",
        PressureCouplingGradient,
        10,
        |lent, _| { (0..lent.counts.faces).find(|&face| is_bare(lent, face)) }
    ),
    refused!(
        "distances that add up to 0 refused by 7",
        PressureCouplingGradientWithoutConditions,
        7,
        |lent, _| (0..lent.counts.faces).find(|&face| {
            let own = distance(lent, face, owner(lent, face));
            let other = neighbour(lent, face).map(|cell| distance(lent, face, cell));
            other.is_some_and(|other| own + other == 0.0)
        })
    ),
    refused!(
        "a gradient that is not finite refused",
        GaussGradientFromFaces,
        17,
        |_, outputs| {
            let number = outputs.gradient.iter().position(|x| !x.is_finite());
            number.map(|number| number / 3)
        }
    ),
    misrefused!(
        "12 at the highest such cell",
        GaussGradientFromFaces,
        12,
        |lent, _, _, lowest| {
            let volumes: Vec<f64> = volumes(lent).collect();
            let highest = volumes.iter().rposition(|&volume| (RIGHT.is_bad)(volume));
            Some(Answer::Refused(12, highest.unwrap_or(lowest)))
        }
    ),
    misrefused!(
        "12 at the first cell",
        PressureCouplingGradient,
        12,
        |_, _, _, _| { Some(Answer::Refused(12, 0)) }
    ),
    misrefused!(
        "the output untouched by 12",
        GaussGradientFromFaces,
        12,
        |_, before, outputs, _| {
            outputs.clone_from(before);
            None
        }
    ),
    misrefused!(
        "the output untouched by 12",
        PressureCouplingGradient,
        12,
        |_, before, outputs, _| {
            outputs.clone_from(before);
            None
        }
    ),
    misrefused!(
        "the output cleared up to the cell of 12",
        PressureCouplingGradientWithoutConditions,
        12,
        |_, before, outputs, cell| {
            outputs.gradient[3 * cell..].copy_from_slice(&before.gradient[3 * cell..]);
            None
        }
    ),
    misrefused!(
        "the sums left by 12",
        GaussGradientFromFaces,
        12,
        |lent, _, outputs, _| {
            outputs.gradient = (RIGHT.sums)(lent, &lent.slices.face_values).concat();
            None
        }
    ),
    misrefused!(
        "the output cleared by a check",
        GaussGradientFromFaces,
        1..=6 | 14 | 20,
        |_, _, outputs, _| {
            outputs.gradient.fill(0.0);
            None
        }
    ),
    misrefused!(
        "the output cleared by a check",
        PressureCouplingGradient,
        1..=6 | 14 | 20,
        |_, _, outputs, _| {
            outputs.gradient.fill(0.0);
            None
        }
    ),
    misrefused!(
        "the output cleared by 20",
        PressureCouplingGradientWithoutConditions,
        20,
        |_, _, outputs, _| {
            outputs.gradient.fill(0.0);
            None
        }
    ),
    volume_before!("12 before 3", GaussGradientFromFaces, 3),
    volume_before!("12 before 3", PressureCouplingGradient, 3),
    volume_before!("12 before 4", GaussGradientFromFaces, 4),
    volume_before!(
        "12 before 14",
        PressureCouplingGradientWithoutConditions,
        14
    ),
    volume_before!("12 before 6", PressureCouplingGradient, 6),
    volume_before!("12 before 20", GaussGradientFromFaces, 20),
    volume_before!("12 before 20", PressureCouplingGradient, 20),
    volume_before!(
        "12 before 20",
        PressureCouplingGradientWithoutConditions,
        20
    ),
    any_mesh!(
        "values of any mesh where 12 refuses",
        GaussGradientFromFaces
    ),
    any_mesh!(
        "pressure and conditions of any mesh",
        PressureCouplingGradient
    ),
    any_mesh!(
        "pressure of any mesh",
        PressureCouplingGradientWithoutConditions
    ),
];
