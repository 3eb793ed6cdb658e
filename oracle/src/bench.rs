//! Times of the Rust and of the port in one process, on the largest meshes within the limits.

use crate::calls::{self, Outcome};
use crate::cases;
use crate::compare::patterned;
use crate::entry::{Entry, Part};
use crate::lent::{Lent, Slices, FACE_WIDTH, OWN};
use crate::makers::{self, Walls};
use crate::port::{Answer, Call, Port};
use crate::random::Random;
use flursys::simple::access::{
    continuity_metrics, pressure_coupling_gradient, rhie_chow_flux_with_coefficients,
};
use flursys::LeastSquaresGradientStencil;
use std::hint::black_box;
use std::time::{Duration, Instant};

/// How long one measurement lasts at least, and how many there are.
const LEAST: Duration = Duration::from_millis(40);
const MEASUREMENTS: usize = 7;

pub fn run(port: &Port) {
    println!(
        "best of {MEASUREMENTS} measurements of {} ms or more, of both sides in turn",
        LEAST.as_millis()
    );
    root(port);
    println!(
        "\nns per face. The Rust allocates its outputs in each call; the port's are lent and hold what its\n\
         last call left, nothing clears them before. The correction in one slice is repeated on what it left,\n\
         and beside it stands the Rust's only correction. Beside face_distances stand the two norms of each\n\
         face by the Rust's Vec3."
    );
    for (name, made) in meshes() {
        let lent = ordinary(&made);
        println!(
            "\n{name}: {} cells, {} faces",
            lent.counts.cells, lent.counts.faces
        );
        println!("{:45} {:>8} {:>8} {:>8}", "", "Rust", "port", "ratio");
        for entry in Entry::ALL {
            let times = entry_times(port, entry, &lent);
            println!("{:45} {}", entry.name(), row(times));
        }
    }
    corrections(port);
    checks(port);
    growth(port);
}

/// Both forms of the correction, measured in turn.
fn corrections(port: &Port) {
    let (into, over) = (
        Entry::CorrectFaceFluxWithBoundary,
        Entry::CorrectFaceFluxInPlace,
    );
    let (Some(second), Some(one)) = (port.call(into), port.call(over)) else {
        return;
    };
    println!(
        "\nthe correction, ns per face: {:>22} {:>10}",
        "into a second slice", "in one"
    );
    for (name, made) in meshes() {
        let lent = ordinary(&made);
        let (mut handed_out, mut written_over) = (patterned(into, &lent), patterned(over, &lent));
        let mut into_second = || accepted(into, second(black_box(&lent), &mut handed_out));
        let mut in_one = || accepted(over, one(black_box(&lent), &mut written_over));
        let times = least([&mut into_second, &mut in_one]);
        let [second, one] = times.map(|time| time / lent.counts.faces as f64);
        println!("{name:28} {second:22.2} {one:10.2}");
    }
}

/// The checks by themselves: calls that the last of them refuses, 6 at the highest face with one cell, 20 at the
/// last face.
fn checks(port: &Port) {
    let entries = [
        Entry::CorrectFaceFluxWithBoundary,
        Entry::GaussGradientFromFaces,
        Entry::PressureCouplingGradient,
        Entry::LeastSquaresStencil,
    ];
    let calls = entries.map(|entry| port.call(entry));
    let [Some(links), Some(grid), Some(linked), Some(whole)] = calls else {
        return;
    };
    println!(
        "\nthe checks, ns per face: {:>26} {:>17} {:>17} {:>10}",
        "adjacency with links", "grid", "grid with links", "all"
    );
    for (name, made) in meshes() {
        let good = ordinary(&made);
        let mut bad_link = good.clone();
        let mut faces = (0..good.counts.faces).rev();
        let face = faces.find(|&face| good.slices.adjacency[2 * face + 1] == 0);
        let face = face.expect("a face with one cell");
        bad_link.slices.codes[2 * face + 1] = face + 1;
        let mut wrong_distance = good.clone();
        let last = good.counts.faces - 1;
        wrong_distance.slices.geometry[FACE_WIDTH * last + OWN] = 0.0;
        let mut outputs = entries.map(|entry| patterned(entry, &good));
        let [first, second, third, fourth] = &mut outputs;
        let mut of_links = || {
            let answer = links(black_box(&bad_link), first);
            assert_eq!(answer, Answer::Refused(6, face));
        };
        let refused = |call: &Call, outputs: &mut Slices| {
            let answer = call(black_box(&wrong_distance), outputs);
            assert_eq!(answer, Answer::Refused(20, last));
        };
        let times = least([
            &mut of_links,
            &mut || refused(grid, second),
            &mut || refused(linked, third),
            &mut || refused(whole, fourth),
        ]);
        let [links, grid, linked, all] = times.map(|time| time / good.counts.faces as f64);
        println!("{name:28} {links:22.2} {grid:17.2} {linked:17.2} {all:10.2}");
    }
}

/// The largest meshes of squares and of cubes within the limits, and the first with its corners moved.
fn meshes() -> [(&'static str, makers::Made); 3] {
    [
        ("127x129 quads", makers::quads(127, 129)),
        ("20x21x26 hexes", makers::hexes(20, 21, 26)),
        (
            "127x129 quads, distorted",
            makers::distorted_quads(127, 129),
        ),
    ]
}

/// What is timed is an accepted call.
fn accepted(entry: Entry, answer: Answer) {
    assert_eq!(answer, Answer::Accepted, "{}", entry.name());
}

/// The step on meshes of growing size, and what is lent for it.
fn growth(port: &Port) {
    println!(
        "\nthe step, ns per face, and bytes of all slices that are lent for it, inputs and outputs, per face; \
         the port\nallocates nothing; linked are the left side and the right; with fewer calls of the Rust there is \
         one prediction\n{:22} {:>7} {:>7} {:>8} {:>8} {:>8} {:>8} {:>8} {:>7}",
        "", "cells", "faces", "Rust", "port", "ratio", "fewer", "ratio", "bytes"
    );
    let squares = [[8, 8], [16, 16], [32, 32], [64, 64], [127, 129]].map(|[columns, rows]| {
        (
            format!("{columns}x{rows} quads"),
            makers::quads(columns, rows),
        )
    });
    let linked = [[1, 8192], [127, 129]].map(|[columns, rows]| {
        (
            format!("{columns}x{rows} quads, linked"),
            makers::linked_quads(columns, rows),
        )
    });
    let cubes = [[3, 3, 3], [5, 5, 5], [8, 8, 8], [13, 13, 13], [20, 21, 26]]
        .map(|[x, y, z]| (format!("{x}x{y}x{z} hexes"), makers::hexes(x, y, z)));
    for (name, made) in squares.into_iter().chain(linked).chain(cubes) {
        let lent = ordinary(&made);
        let [rust, fewer, engine] = step_times(port, &lent);
        let inputs = Entry::Step.inputs().iter();
        let words: usize = inputs
            .chain(Entry::Step.outputs())
            .map(|&part| lent.due(part).expect("good input"))
            .sum();
        let faces = lent.counts.faces;
        println!(
            "{name:22} {:7} {faces:7} {} {} {:7.0}",
            lent.counts.cells,
            row([rust, engine]),
            shown([fewer, ratio(fewer, engine)]),
            8.0 * words as f64 / faces as f64
        );
    }
}

/// The two times and their ratio.
fn row([rust, port]: [Option<f64>; 2]) -> String {
    shown([rust, port, ratio(rust, port)])
}

fn ratio(rust: Option<f64>, port: Option<f64>) -> Option<f64> {
    rust.zip(port).map(|(rust, port)| port / rust)
}

fn shown<const N: usize>(cells: [Option<f64>; N]) -> String {
    let shown = cells.map(|cell| cell.map_or("-".to_owned(), |time| format!("{time:.2}")));
    shown.map(|cell| format!("{cell:>8}")).join(" ")
}

/// Roots of random numbers of any exponent.
fn root(port: &Port) {
    let mut random = Random::new(1);
    let arguments: Vec<f64> = (0..4096)
        .map(|_| f64::from_bits(random.next() & !(1 << 63)))
        .map(|x| if x.is_finite() { x } else { 2.0 })
        .collect();
    let per_call = |sqrt: &dyn Fn(f64) -> f64| {
        let mut walk = || {
            for &x in &arguments {
                black_box(sqrt(black_box(x)));
            }
        };
        least([&mut walk])[0] / arguments.len() as f64
    };
    let machine = per_call(&|x: f64| x.sqrt());
    match port.sqrt {
        Some(sqrt) => {
            let ours = per_call(&sqrt);
            let ratio = ours / machine;
            println!(
                "sqrt, ns per call: instruction {machine:.2}, port {ours:.2}, ratio {ratio:.2}"
            );
        }
        None => println!("sqrt, ns per call: instruction {machine:.2}, the port is not linked"),
    }
}

/// Fields on which every entry is accepted.
fn ordinary(made: &makers::Made) -> Lent {
    let mut random = Random::new(1);
    loop {
        let lent = cases::case(&mut random, made, Walls::Mixed).lent;
        let mut all = Entry::ALL.into_iter();
        if all.all(|entry| matches!(calls::run(entry, &lent), Outcome::Accepted(_))) {
            return lent;
        }
    }
}

/// Nanoseconds per face, of the Rust and of the port where it is linked.
fn entry_times(port: &Port, entry: Entry, lent: &Lent) -> [Option<f64>; 2] {
    let faces = lent.counts.faces as f64;
    let mut rust = rust_call(entry, lent);
    match port.call(entry) {
        Some(call) => {
            let mut outputs = patterned(entry, lent);
            let mut repeated = || accepted(entry, call(black_box(lent), &mut outputs));
            least([&mut rust, &mut repeated]).map(|time| Some(time / faces))
        }
        None => [Some(least([&mut rust])[0] / faces), None],
    }
}

/// The same of the step: of the Rust's functions in order and of fewer, and of the port.
fn step_times(port: &Port, lent: &Lent) -> [Option<f64>; 3] {
    let faces = lent.counts.faces as f64;
    let [mut in_order, mut fewer] = [true, false].map(|in_order| rust_step(lent, in_order));
    match port.call(Entry::Step) {
        Some(call) => {
            let mut outputs = patterned(Entry::Step, lent);
            let mut repeated = || accepted(Entry::Step, call(black_box(lent), &mut outputs));
            least([&mut in_order, &mut fewer, &mut repeated]).map(|time| Some(time / faces))
        }
        None => {
            let [in_order, fewer] = least([&mut in_order, &mut fewer]);
            [Some(in_order / faces), Some(fewer / faces), None]
        }
    }
}

/// The Rust's function on objects that are made beforehand.
fn rust_call(entry: Entry, lent: &Lent) -> Box<dyn FnMut()> {
    let mesh = lent.mesh();
    let conditions = lent.conditions();
    let stencil = lent.stencil();
    let diagonal = lent.slices.diagonal.clone();
    let velocity = lent.cell_vectors(Part::Velocity);
    let pressure = lent.cell_numbers(Part::Pressure);
    let responses = lent.cell_numbers(Part::Responses);
    let gradient = lent.cell_vectors(Part::Gradient);
    let walls = lent.face_numbers(Part::Walls);
    let predicted = lent.face_numbers(Part::Predicted);
    let coefficients = lent.face_numbers(Part::Coefficients);
    let correction = lent.cell_numbers(Part::Correction);
    let flux = lent.face_numbers(Part::Flux);
    let face_values = lent.face_numbers(Part::FaceValues);
    macro_rules! repeat {
        ($call:expr) => {
            Box::new(move || {
                black_box($call.is_ok());
            })
        };
    }
    match entry {
        Entry::MomentumInverseDiagonal => repeat!(flursys::momentum_inverse_diagonal(&diagonal)),
        Entry::LeastSquaresStencil => {
            repeat!(LeastSquaresGradientStencil::new(&mesh, &conditions))
        }
        Entry::LeastSquaresGradient => {
            repeat!(flursys::least_squares_gradient(&mesh, &stencil, &pressure))
        }
        Entry::PressureFaceCoefficients => {
            repeat!(flursys::pressure_face_coefficients(&mesh, &responses))
        }
        Entry::PressureFaceCoefficientsWithBoundary => {
            repeat!(flursys::pressure_face_coefficients_with_boundary(
                &mesh,
                &responses,
                &conditions
            ))
        }
        Entry::RhieChowPredictedFlux => repeat!(flursys::rhie_chow_predicted_flux(
            &mesh, &velocity, &pressure, &responses, &stencil, &walls
        )),
        Entry::CorrectFaceFluxWithBoundary | Entry::CorrectFaceFluxInPlace => {
            repeat!(flursys::correct_face_flux_with_boundary(
                &mesh,
                &predicted,
                &coefficients,
                &correction,
                &conditions
            ))
        }
        Entry::CorrectCellVelocityFromGradient => {
            repeat!(flursys::correct_cell_velocity_from_gradient(
                &mesh, &velocity, &responses, &gradient
            ))
        }
        Entry::IntegratedDivergence => repeat!(flursys::integrated_divergence(&mesh, &flux)),
        Entry::ContinuityMetrics => repeat!(continuity_metrics(&mesh, &flux)),
        Entry::Step => rust_step(lent, true),
        Entry::FaceDistances => {
            let mut geometry = lent.slices.geometry.clone();
            Box::new(move || {
                calls::write_distances(black_box(&mesh), &conditions, &mut geometry);
                black_box(&geometry);
            })
        }
        Entry::GaussGradientFromFaces => {
            repeat!(flursys::gauss_gradient_from_faces(&mesh, &face_values))
        }
        Entry::PressureCouplingGradient => {
            repeat!(pressure_coupling_gradient(
                &mesh,
                &pressure,
                Some(&conditions)
            ))
        }
        Entry::PressureCouplingGradientWithoutConditions => {
            repeat!(pressure_coupling_gradient(&mesh, &pressure, None))
        }
    }
}

/// The Rust's functions as the step has them, in the order of documents 01 and 02: the prediction without links, and
/// that with links behind the coefficients, which makes the other fluxes once more. Not in order it is the least
/// sequence that gives what an accepted step hands out: the latter prediction alone, which only the order of refusals
/// tells from both.
fn rust_step(lent: &Lent, in_order: bool) -> Box<dyn FnMut()> {
    let mesh = lent.mesh();
    let conditions = lent.conditions();
    let velocity = lent.cell_vectors(Part::Velocity);
    let pressure = lent.cell_numbers(Part::Pressure);
    let responses = lent.cell_numbers(Part::Responses);
    let walls = lent.face_numbers(Part::Walls);
    let correction = lent.cell_numbers(Part::Correction);
    Box::new(move || {
        let stencil = LeastSquaresGradientStencil::new(&mesh, &conditions).expect("accepted");
        if in_order {
            let without_links = flursys::rhie_chow_predicted_flux(
                &mesh, &velocity, &pressure, &responses, &stencil, &walls,
            );
            black_box(without_links.is_ok());
        }
        let coefficients =
            flursys::pressure_face_coefficients_with_boundary(&mesh, &responses, &conditions)
                .expect("accepted");
        let predicted = rhie_chow_flux_with_coefficients(
            &mesh,
            &velocity,
            &pressure,
            &responses,
            &stencil,
            &walls,
            &coefficients,
            None,
            Some(&conditions),
        )
        .expect("accepted");
        let flux = flursys::correct_face_flux_with_boundary(
            &mesh,
            &predicted,
            &coefficients,
            &correction,
            &conditions,
        )
        .expect("accepted");
        black_box(flursys::integrated_divergence(&mesh, &flux).is_ok());
        black_box(continuity_metrics(&mesh, &flux).is_ok());
    })
}

/// The least time of one run of each, measured in turn so that what slows the machine slows all.
fn least<const N: usize>(mut works: [&mut dyn FnMut(); N]) -> [f64; N] {
    let mut best = [f64::INFINITY; N];
    for _ in 0..MEASUREMENTS {
        for (work, best) in works.iter_mut().zip(&mut best) {
            let start = Instant::now();
            let mut runs = 0;
            while start.elapsed() < LEAST {
                work();
                runs += 1;
            }
            *best = best.min(start.elapsed().as_nanos() as f64 / f64::from(runs));
        }
    }
    best
}
