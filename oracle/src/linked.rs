//! The prediction of linked faces written a second time, on the lent slices alone and by parts that can be written
//! otherwise.

use crate::calls::{Outcome, Place, Refusal};
use crate::cases;
use crate::lent::{Lent, FACE_WIDTH};

/// A linked face and its peer.
#[derive(Clone, Copy, Debug)]
pub struct Link {
    pub face: usize,
    pub peer: usize,
}

/// What a linked face is predicted of: vectors and numbers of its owner, and of its peer's.
pub struct Sides {
    pub velocity: [[f64; 3]; 2],
    pub gradient: [[f64; 3]; 2],
    pub pressure: [f64; 2],
    pub response: [f64; 2],
}

/// The parts of the prediction. What is lent to each holds the step's gradient and coefficients.
pub struct Writing {
    /// Whether a linked face is predicted, and does not keep its wall flux.
    pub is_predicted: fn(&Lent, Link) -> bool,
    /// Where the cell beyond a face is seen.
    pub image: fn(&Lent, Link) -> [f64; 3],
    /// How far the face is from that.
    pub far: fn(&Lent, Link, [f64; 3]) -> f64,
    /// The owner's weight, of the distances on both sides.
    pub weight: fn([f64; 2]) -> f64,
    pub coefficient: fn(&Lent, Link) -> f64,
    pub sides: fn(&Lent, Link) -> Sides,
    /// The sum of what velocity, covariance and pressure give.
    pub sum: fn([f64; 3]) -> f64,
    /// Whether a face is refused, with its own prediction.
    pub is_refused: fn(&Lent, Link, f64) -> bool,
    /// The face that is named, of those refused, the lowest first.
    pub named: fn(&[Link]) -> usize,
    /// The fluxes of two faces, the lower's first, of their own predictions.
    pub pair: fn(&Lent, Link, [f64; 2]) -> [f64; 2],
}

pub const RIGHT: Writing = Writing {
    is_predicted: |_, _| true,
    image: |lent, link| image_by(lent, link, 1.0),
    far: |lent, link, image| norm(minus(center(lent, link.face), image)),
    weight: |[a, b]| b / (a + b),
    coefficient: |lent, link| lent.slices.coefficients[link.face],
    sides,
    sum: |[velocity, covariance, pressure]| velocity + covariance + pressure,
    is_refused: |_, _, own| !own.is_finite(),
    named: |refused| refused[0].face,
    pair: |_, _, [lower, _]| [lower, -lower],
};

/// Every linked face, the lowest first. What is lent has passed the checks.
pub fn links(lent: &Lent) -> Vec<Link> {
    let faces = 0..lent.counts.faces;
    let link = |face: usize| {
        let peer = lent.slices.codes[2 * face + 1].checked_sub(1)?;
        Some(Link { face, peer })
    };
    faces.filter_map(link).collect()
}

/// Those of them that are the lower of their pair.
pub fn pairs(lent: &Lent) -> impl Iterator<Item = Link> {
    links(lent).into_iter().filter(|link| link.face < link.peer)
}

/// A linked face's own prediction.
pub fn own(writing: &Writing, lent: &Lent, link: Link) -> f64 {
    let from = place(lent, owner(lent, link.face));
    let image = (writing.image)(lent, link);
    let near = norm(minus(center(lent, link.face), from));
    let weight = (writing.weight)([near, (writing.far)(lent, link, image)]);
    let sides = (writing.sides)(lent, link);
    let between =
        |sides: [f64; 2], weights: [f64; 2]| sides[0] * weights[0] + sides[1] * weights[1];
    let vectors = |sides: [[f64; 3]; 2], weights: [f64; 2]| {
        [0, 1, 2].map(|axis| between([sides[0][axis], sides[1][axis]], weights))
    };
    let weights = [weight, 1.0 - weight];
    let weighted = [0, 1].map(|side| weights[side] * sides.response[side]);
    let response = weighted[0] + weighted[1];
    let gradient = vectors(sides.gradient, weights);
    let product = vectors(sides.gradient, weighted);
    let covariance = [0, 1, 2].map(|axis| product[axis] - gradient[axis] * response);
    let area = area(lent, link.face);
    let slope = dot(gradient, minus(image, from));
    let pressure = slope - (sides.pressure[1] - sides.pressure[0]);
    (writing.sum)([
        dot(vectors(sides.velocity, weights), area),
        dot(covariance, area),
        (writing.coefficient)(lent, link) * pressure,
    ])
}

/// The predicted fluxes of all faces, or the face that 9 names.
pub fn predicted(writing: &Writing, lent: &Lent) -> Result<Vec<f64>, usize> {
    let mut fluxes = lent.slices.predicted.clone();
    let mut refused = Vec::new();
    for link in links(lent) {
        if (writing.is_predicted)(lent, link) {
            let own = own(writing, lent, link);
            fluxes[link.face] = own;
            if (writing.is_refused)(lent, link, own) {
                refused.push(link);
            }
        }
    }
    if !refused.is_empty() {
        return Err((writing.named)(&refused));
    }
    for link in pairs(lent) {
        let own = [fluxes[link.face], fluxes[link.peer]];
        if (writing.is_predicted)(lent, link) {
            let [lower, higher] = (writing.pair)(lent, link, own);
            fluxes[link.face] = lower;
            fluxes[link.peer] = higher;
        }
    }
    Ok(fluxes)
}

/// The step with this prediction; its other parts are the Rust's.
pub fn step(writing: &Writing, lent: &Lent) -> Outcome {
    match cases::begun(lent) {
        Ok(begun) => finished(writing, begun),
        Err(refused) => refused,
    }
}

/// The same, of what stands before the prediction.
pub fn finished(writing: &Writing, mut begun: Lent) -> Outcome {
    match predicted(writing, &begun) {
        Ok(fluxes) => begun.slices.predicted = fluxes,
        Err(face) => return refused_by_9(face),
    }
    cases::finished(&begun)
}

pub fn refused_by_9(face: usize) -> Outcome {
    Outcome::Refused(Refusal {
        place: Place::Arithmetic,
        number: 9,
        index: face,
    })
}

pub fn sides(lent: &Lent, link: Link) -> Sides {
    let slices = &lent.slices;
    let cells = [owner(lent, link.face), owner(lent, link.peer)];
    Sides {
        velocity: cells.map(|cell| three(&slices.velocity, 3 * cell)),
        gradient: cells.map(|cell| three(&slices.gradient, 3 * cell)),
        pressure: cells.map(|cell| slices.pressure[cell]),
        response: cells.map(|cell| slices.responses[cell]),
    }
}

/// The centre of the peer's owner with this share of the face's translation taken from it.
pub fn image_by(lent: &Lent, link: Link, share: f64) -> [f64; 3] {
    let at = place(lent, owner(lent, link.peer));
    let translation = three(&lent.slices.values, 4 * link.face + 1);
    minus(at, translation.map(|x| share * x))
}

pub fn owner(lent: &Lent, face: usize) -> usize {
    lent.slices.adjacency[2 * face]
}

pub fn center(lent: &Lent, face: usize) -> [f64; 3] {
    three(&lent.slices.geometry, FACE_WIDTH * face)
}

pub fn area(lent: &Lent, face: usize) -> [f64; 3] {
    three(&lent.slices.geometry, FACE_WIDTH * face + 3)
}

pub fn place(lent: &Lent, cell: usize) -> [f64; 3] {
    three(&lent.slices.places, 4 * cell)
}

fn three(numbers: &[f64], at: usize) -> [f64; 3] {
    [0, 1, 2].map(|axis| numbers[at + axis])
}

pub fn minus(a: [f64; 3], b: [f64; 3]) -> [f64; 3] {
    [0, 1, 2].map(|axis| a[axis] - b[axis])
}

pub fn dot(a: [f64; 3], b: [f64; 3]) -> f64 {
    a[0] * b[0] + a[1] * b[1] + a[2] * b[2]
}

pub fn norm(a: [f64; 3]) -> f64 {
    dot(a, a).sqrt()
}
