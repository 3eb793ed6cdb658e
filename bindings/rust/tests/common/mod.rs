//! The case of the program `edges` that every entry accepts, and the stored lines of the original Rust.
#![allow(dead_code)]

use juvandeer::{
    Cell, CellField, Condition, Conditions, Dimension, Face, FaceField, Mesh, Refusal, Stencil,
    Step, StepInput, Vec3, VectorField,
};
use std::fs;
use std::path::Path;

/// Outputs as words, or the refusal.
pub type Answer = Result<Vec<Vec<u64>>, Refusal>;

/// The stored lines of a program.
pub fn stored(program: &str) -> String {
    let crates = Path::new(env!("CARGO_MANIFEST_DIR")).join("../../crates");
    fs::read_to_string(crates.join(program).join("stdout")).expect("the stored lines are at hand")
}

/// The answer that is told behind the name of a case.
pub fn answer(told: &str) -> Answer {
    if let Some(outputs) = told.strip_prefix("accepted, ") {
        return Ok(outputs.split(", ").map(words).collect());
    }
    let refusal = told.strip_prefix("refused ").expect("an answer");
    let (number, rest) = refusal.split_once(" at ").expect("an index");
    let index = rest.split(',').next().unwrap_or_default();
    Err(Refusal::new(
        number.parse().unwrap(),
        index.parse().unwrap(),
    ))
}

/// Numbers between -0.5 and 0.5, always the same ones.
pub struct Numbers(pub u64);

impl Numbers {
    pub fn next(&mut self) -> f64 {
        self.0 = self
            .0
            .wrapping_mul(6364136223846793005)
            .wrapping_add(1442695040888963407);
        (self.0 >> 11) as f64 / (1_u64 << 53) as f64 - 0.5
    }

    pub fn list(&mut self, count: usize) -> Vec<f64> {
        (0..count).map(|_| self.next()).collect()
    }
}

pub fn words(output: &str) -> Vec<u64> {
    let words = output.split_whitespace();
    words
        .map(|word| u64::from_str_radix(word, 16).unwrap())
        .collect()
}

pub fn floats(values: &[f64]) -> Vec<u64> {
    values.iter().map(|x| x.to_bits()).collect()
}

fn wholes(values: &[usize]) -> Vec<u64> {
    values.iter().map(|&n| n as u64).collect()
}

pub fn stencil_words(stencil: &Stencil) -> Vec<Vec<u64>> {
    vec![
        wholes(stencil.starts()),
        wholes(stencil.equations()),
        floats(stencil.weights()),
        floats(stencil.inverses()),
    ]
}

/// The outputs of a step in the library's order.
pub fn step_words(step: &Step) -> Vec<Vec<u64>> {
    let metrics = step.metrics;
    let mut words = stencil_words(&step.stencil);
    words.push(floats(step.gradient.values()));
    words.push(floats(step.predicted.values()));
    words.push(floats(step.coefficients.values()));
    words.push(floats(step.flux.values()));
    words.push(floats(step.outflow.values()));
    words.push(floats(&[
        metrics.root_mean_square,
        metrics.largest_divergence,
    ]));
    words
}

/// Two unit squares side by side, with the names and numbers of `oracle/src/edges.rs`: face 0 joins cells 0 and
/// 1; faces 1 and 2, to the left and to the right, are linked; faces 3 and 4 are below and above cell 0, faces
/// 5 and 6 below and above cell 1. A test changes it before it is made into a mesh.
pub struct Base {
    pub faces: Vec<Face>,
    pub cells: Vec<Cell>,
    pub conditions: Vec<Condition>,
    pub links: Vec<(usize, usize)>,
    pub starts: Vec<usize>,
    pub diagonal: Vec<f64>,
    pub responses: Vec<f64>,
    pub pressure: Vec<f64>,
    pub velocity: Vec<Vec3>,
    pub gradient: Vec<Vec3>,
    pub walls: Vec<f64>,
    pub predicted: Vec<f64>,
    pub coefficients: Vec<f64>,
    pub correction: Vec<f64>,
    pub flux: Vec<f64>,
    /// Room for equation records, one more than the stencil has.
    pub room: usize,
}

/// A face of its centre, area vector and normal.
pub fn face(owner: usize, neighbour: Option<usize>, numbers: [Vec3; 3]) -> Face {
    let [center, area_vector, normal] = numbers;
    Face {
        owner,
        neighbour,
        center,
        area_vector,
        normal,
    }
}

/// One in the plane, of unit area.
fn flat(owner: usize, neighbour: Option<usize>, center: [f64; 2], normal: [f64; 2]) -> Face {
    let [center, normal] = [center, normal].map(|[x, y]| [x, y, 0.0]);
    face(owner, neighbour, [center, normal, normal])
}

pub fn base() -> Base {
    use Condition::{Absent, FixedValue, ZeroGradient};
    let cell = |x| Cell {
        center: [x, 0.5, 0.0],
        volume: 1.0,
    };
    Base {
        faces: vec![
            flat(0, Some(1), [1.0, 0.5], [1.0, 0.0]),
            flat(0, None, [0.0, 0.5], [-1.0, 0.0]),
            flat(1, None, [2.0, 0.5], [1.0, 0.0]),
            flat(0, None, [0.5, 0.0], [0.0, -1.0]),
            flat(0, None, [0.5, 1.0], [0.0, 1.0]),
            flat(1, None, [1.5, 0.0], [0.0, -1.0]),
            flat(1, None, [1.5, 1.0], [0.0, 1.0]),
        ],
        cells: vec![cell(0.5), cell(1.5)],
        conditions: vec![
            Absent,
            Absent,
            Absent,
            FixedValue(4.0),
            ZeroGradient,
            ZeroGradient,
            FixedValue(2.0),
        ],
        links: vec![(1, 2)],
        starts: vec![1, 4],
        diagonal: vec![2.0, 3.0],
        responses: vec![0.5, 0.25],
        pressure: vec![0.1, 0.7],
        velocity: vec![[1.0, 0.5, 0.0], [3.0, 0.3, 0.0]],
        gradient: vec![[1.0, 0.5, 0.0], [4.0, 0.3, 0.0]],
        walls: vec![0.0, 2.0, -2.0, 0.5, -0.6, 0.3, 1.0],
        predicted: vec![2.0, -1.0, 1.0, 0.0, 0.1, 0.2, -0.3],
        coefficients: vec![0.5, 1.0, 1.0, 2.0, 0.0, 0.0, 0.7],
        correction: vec![1.0, 3.0],
        flux: vec![1.0, -1.0, 0.7, 0.1, 0.2, -0.5, 0.3],
        room: 7,
    }
}

impl Base {
    pub fn mesh(&self) -> Mesh {
        Mesh::from_faces(Dimension::Two, &self.faces, &self.cells).unwrap()
    }

    pub fn made(&self) -> Made {
        self.made_for(self.mesh())
    }

    /// Everything that is lent beside a mesh of that form.
    pub fn made_for(&self, mesh: Mesh) -> Made {
        let mut conditions = Conditions::new(&mesh, &self.conditions);
        for &(face, peer) in &self.links {
            conditions.link(face, peer, [2.0, 0.0, 0.0]).unwrap();
        }
        Made {
            conditions,
            stencil: self.stencil(&mesh),
            diagonal: self.diagonal.clone(),
            responses: CellField::new(&mesh, self.responses.clone()),
            pressure: CellField::new(&mesh, self.pressure.clone()),
            velocity: VectorField::new(&mesh, &self.velocity),
            gradient: VectorField::new(&mesh, &self.gradient),
            walls: FaceField::new(&mesh, self.walls.clone()),
            predicted: FaceField::new(&mesh, self.predicted.clone()),
            coefficients: FaceField::new(&mesh, self.coefficients.clone()),
            correction: CellField::new(&mesh, self.correction.clone()),
            flux: FaceField::new(&mesh, self.flux.clone()),
            room: self.room,
            mesh,
        }
    }

    /// A stencil that is no mesh's own, with room for seven equations.
    #[rustfmt::skip]
    fn stencil(&self, mesh: &Mesh) -> Stencil {
        let equations = vec![3, 2, 3, 3, 1, 0, 2, 5, 2, 6, 1, 7, 0, 0];
        let weights = vec![
            1.0, 0.0, 0.0, 0.0,
            -0.7, 0.0, 0.0, 0.0,
            0.0, -2.0, 0.0, 4.0,
            -1.0, 0.0, 0.0, 0.0,
            0.7, 0.0, 0.0, 0.0,
            0.0, 2.0, 0.0, 2.0,
            1.0, 1.0, 0.0, 0.0,
        ];
        let inverses = vec![
            0.5, 0.0, 0.0, 0.0, 1.0, 0.0, 0.0, 0.0, 0.0,
            0.5, 0.1, 0.0, 0.1, 1.0, 0.0, 0.0, 0.0, 0.0,
        ];
        Stencil::from_slices(mesh, self.starts.clone(), equations, weights, inverses)
    }
}

/// The case as the bindings take it.
pub struct Made {
    pub mesh: Mesh,
    pub conditions: Conditions,
    pub stencil: Stencil,
    pub diagonal: Vec<f64>,
    pub responses: CellField,
    pub pressure: CellField,
    pub velocity: VectorField,
    pub gradient: VectorField,
    pub walls: FaceField,
    pub predicted: FaceField,
    pub coefficients: FaceField,
    pub correction: CellField,
    pub flux: FaceField,
    pub room: usize,
}

impl Made {
    pub fn step_input(&self) -> StepInput<'_> {
        StepInput {
            conditions: &self.conditions,
            velocity: &self.velocity,
            pressure: &self.pressure,
            responses: &self.responses,
            walls: &self.walls,
            correction: &self.correction,
        }
    }
}
