//! The lent form: counts and flat slices, made from the Rust's objects and turned back into them.
//!
//! | slice | per | one record |
//! |---|---|---|
//! | adjacency | face | owner, neighbour + 1 (0 none) |
//! | geometry | face | centre 3, area vector 3, normal 3, distance to the owner, distance on the other side |
//! | heads | cell | first face record, first neighbour record |
//! | places | cell | centre 3, volume |
//! | facing | face record | face, next |
//! | bordering | neighbour record | cell, next |
//! | codes | face | condition (0 absent, 1 fixed, 2 zero gradient), peer + 1 (0 none) |
//! | values | face | fixed value, translation 3 |
//! | starts | cell | first equation record |
//! | equations | equation record | source (0 zero normal derivative, 1 fixed value, cell + 2), next |
//! | weights | equation record | coefficient 3, fixed value |
//! | inverses | cell | nine numbers |
//!
//! Records count from 1 and 0 ends a chain. Chains keep the order of the Rust's `Vec`, cell after cell. The
//! distance on the other side is to the neighbour; of a linked face it is its peer's to that one's owner; else +0.0.

use crate::entry::{Part, Unit};
use flursys::numerics::access::{Equation, Source};
use flursys::periodic::CyclicLink;
use flursys::{
    fields, mesh, numerics, periodic, Cell, CellField, Face, FaceField,
    LeastSquaresGradientStencil, MeshDimension, MeshId, ResolvedScalarBoundaryConditions,
    ScalarBoundaryCondition, UnstructuredMesh, Vec3,
};

/// How many numbers the geometry has of a face, and the places of its two distances among them.
pub const FACE_WIDTH: usize = 11;
pub const OWN: usize = 9;
pub const OTHER: usize = 10;

/// The mesh's number and its counts, as C has such a record, so that it can be lent by value.
#[repr(C)]
#[derive(Clone, Copy, Debug, PartialEq, Eq)]
pub struct Counts {
    pub mesh: u64,
    pub dimension: usize,
    pub cells: usize,
    pub faces: usize,
    pub face_records: usize,
    pub neighbour_records: usize,
}

/// Every slice that can be lent or handed out; those not in use are empty.
#[derive(Clone, Debug, Default)]
pub struct Slices {
    pub adjacency: Vec<usize>,
    pub geometry: Vec<f64>,
    pub heads: Vec<usize>,
    pub places: Vec<f64>,
    pub facing: Vec<usize>,
    pub bordering: Vec<usize>,
    pub codes: Vec<usize>,
    pub values: Vec<f64>,
    pub starts: Vec<usize>,
    pub equations: Vec<usize>,
    pub weights: Vec<f64>,
    pub inverses: Vec<f64>,
    pub diagonal: Vec<f64>,
    pub responses: Vec<f64>,
    pub pressure: Vec<f64>,
    pub velocity: Vec<f64>,
    pub gradient: Vec<f64>,
    pub walls: Vec<f64>,
    pub predicted: Vec<f64>,
    pub coefficients: Vec<f64>,
    pub correction: Vec<f64>,
    pub flux: Vec<f64>,
    pub outflow: Vec<f64>,
    pub metrics: Vec<f64>,
    pub corrected: Vec<f64>,
    pub face_values: Vec<f64>,
}

/// One slice, of whole numbers or of floats.
pub enum Slice<'a> {
    Whole(&'a Vec<usize>),
    Float(&'a Vec<f64>),
}

pub enum SliceMut<'a> {
    Whole(&'a mut Vec<usize>),
    Float(&'a mut Vec<f64>),
}

impl Slice<'_> {
    pub fn len(&self) -> usize {
        match self {
            Slice::Whole(numbers) => numbers.len(),
            Slice::Float(numbers) => numbers.len(),
        }
    }

    /// Its numbers as 64-bit words.
    pub fn words(&self) -> Vec<u64> {
        match self {
            Slice::Whole(numbers) => numbers.iter().map(|&number| number as u64).collect(),
            Slice::Float(numbers) => numbers.iter().map(|number| number.to_bits()).collect(),
        }
    }
}

impl SliceMut<'_> {
    pub fn resize(&mut self, length: usize, whole: usize, float: f64) {
        match self {
            SliceMut::Whole(numbers) => numbers.resize(length, whole),
            SliceMut::Float(numbers) => numbers.resize(length, float),
        }
    }
}

/// Gives `Slices` its two ways to a slice by its part.
macro_rules! parts {
    (whole: $($wpart:ident $whole:ident),*; float: $($fpart:ident $float:ident),*) => {
        impl Slices {
            pub fn slice(&self, part: Part) -> Slice<'_> {
                match part {
                    $(Part::$wpart => Slice::Whole(&self.$whole),)*
                    $(Part::$fpart => Slice::Float(&self.$float),)*
                }
            }

            pub fn slice_mut(&mut self, part: Part) -> SliceMut<'_> {
                match part {
                    $(Part::$wpart => SliceMut::Whole(&mut self.$whole),)*
                    $(Part::$fpart => SliceMut::Float(&mut self.$float),)*
                }
            }
        }
    };
}

parts! {
    whole: Adjacency adjacency, Heads heads, Facing facing, Bordering bordering, Codes codes,
        Starts starts, Equations equations;
    float: Geometry geometry, Places places, Values values, Weights weights, Inverses inverses,
        Diagonal diagonal, Responses responses, Pressure pressure, Velocity velocity,
        Gradient gradient, Walls walls, Predicted predicted, Coefficients coefficients,
        Correction correction, Flux flux, Outflow outflow, Metrics metrics, Corrected corrected,
        FaceValues face_values
}

impl Slices {
    /// Copies one slice from another set.
    pub fn take(&mut self, part: Part, from: &Slices) {
        match (self.slice_mut(part), from.slice(part)) {
            (SliceMut::Whole(to), Slice::Whole(from)) => to.clone_from(from),
            (SliceMut::Float(to), Slice::Float(from)) => to.clone_from(from),
            _ => unreachable!("a part has one kind of number"),
        }
    }

    fn floats(&self, part: Part) -> &[f64] {
        match self.slice(part) {
            Slice::Float(numbers) => numbers,
            Slice::Whole(_) => unreachable!("a slice of floats"),
        }
    }

    pub fn floats_mut(&mut self, part: Part) -> &mut Vec<f64> {
        match self.slice_mut(part) {
            SliceMut::Float(numbers) => numbers,
            SliceMut::Whole(_) => unreachable!("a slice of floats"),
        }
    }
}

/// What is lent to a call.
#[derive(Clone, Debug)]
pub struct Lent {
    pub counts: Counts,
    /// Equation records in the slices of the stencil, lent or handed out.
    pub records: usize,
    /// The mesh numbers beside conditions, stencil and fields, by part.
    numbers: [u64; Part::ALL.len()],
    pub slices: Slices,
}

impl Lent {
    /// A mesh and its conditions; a field is added by its slice.
    pub fn new(mesh: &UnstructuredMesh, conditions: &ResolvedScalarBoundaryConditions) -> Self {
        let mut slices = Slices::default();
        export_faces(mesh, conditions, &mut slices);
        export_cells(mesh, &mut slices);
        export_conditions(mesh, conditions, &mut slices);
        let counts = Counts {
            mesh: mesh.id().get(),
            dimension: match mesh.dimension() {
                MeshDimension::TwoD => 2,
                MeshDimension::ThreeD => 3,
            },
            cells: mesh.cell_count(),
            faces: mesh.face_count(),
            face_records: slices.facing.len() / 2,
            neighbour_records: slices.bordering.len() / 2,
        };
        Self::of(counts, 0, slices)
    }

    /// Slices as they are, all with the mesh's number.
    pub fn of(counts: Counts, records: usize, slices: Slices) -> Self {
        Self {
            counts,
            records,
            numbers: [counts.mesh; Part::ALL.len()],
            slices,
        }
    }

    /// The mesh number beside a part.
    pub fn number(&self, part: Part) -> u64 {
        self.numbers[part as usize]
    }

    pub fn set_number(&mut self, part: Part, number: u64) {
        self.numbers[part as usize] = number;
    }

    /// Gives the mesh, and all that is lent with it, another number.
    pub fn renumber(&mut self, number: u64) {
        self.counts.mesh = number;
        self.numbers = [number; Part::ALL.len()];
    }

    /// How many numbers the slice of a part should hold, where that can be written down.
    pub fn due(&self, part: Part) -> Option<usize> {
        let (unit, width) = part.shape();
        let count = match unit {
            Unit::Cell => self.counts.cells,
            Unit::Face => self.counts.faces,
            Unit::FaceRecord => self.counts.face_records,
            Unit::NeighbourRecord => self.counts.neighbour_records,
            Unit::EquationRecord => self.records,
            Unit::Call => 1,
        };
        count.checked_mul(width)
    }

    /// The cells or faces that a chain names, from its first record on. A chain that is broken ends
    /// at its first broken record.
    pub fn chain(records: &[usize], first: usize) -> Vec<usize> {
        let mut named = Vec::new();
        let mut at = first;
        while at != 0 && at <= records.len() / 2 && named.len() < records.len() / 2 {
            named.push(records[2 * at - 2]);
            at = records[2 * at - 1];
        }
        named
    }

    /// The Rust's mesh. Slices that are not lent may be short; what they lack is zero.
    pub fn mesh(&self) -> UnstructuredMesh {
        let id = mesh::access::mesh_id(self.counts.mesh);
        let dimension = match self.counts.dimension {
            2 => MeshDimension::TwoD,
            _ => MeshDimension::ThreeD,
        };
        let faces = (0..self.counts.faces).map(|face| self.face(face)).collect();
        let cells = (0..self.counts.cells).map(|cell| self.cell(cell)).collect();
        mesh::access::from_parts(id, dimension, faces, cells)
    }

    fn face(&self, face: usize) -> Face {
        let record = FACE_WIDTH * face;
        let area_vector = vector(&self.slices.geometry, record + 3);
        Face {
            vertices: Vec::new(),
            owner: whole(&self.slices.adjacency, 2 * face),
            neighbour: whole(&self.slices.adjacency, 2 * face + 1).checked_sub(1),
            center: vector(&self.slices.geometry, record),
            area: area_vector.norm(),
            normal: vector(&self.slices.geometry, record + 6),
            area_vector,
        }
    }

    fn cell(&self, cell: usize) -> Cell {
        let slices = &self.slices;
        Cell {
            faces: Self::chain(&slices.facing, whole(&slices.heads, 2 * cell)),
            neighbours: Self::chain(&slices.bordering, whole(&slices.heads, 2 * cell + 1)),
            center: vector(&slices.places, 4 * cell),
            volume: float(&slices.places, 4 * cell + 3),
        }
    }

    /// The centre of a face in the geometry, or of a cell in the places, where it is there.
    fn center(&self, part: Part, at: usize) -> Option<Vec3> {
        let (_, width) = part.shape();
        let numbers = self.slices.floats(part);
        (at < numbers.len() / width).then(|| vector(numbers, width * at))
    }

    /// How far the centre of a face is from that of a cell, by the Rust's arithmetic; `None` where one of them is
    /// not there.
    pub fn distance(&self, face: usize, cell: usize) -> Option<f64> {
        let face = self.center(Part::Geometry, face)?;
        Some((face - self.center(Part::Places, cell)?).norm())
    }

    /// How far the centre of a linked face is from the image of its peer's owner, likewise.
    pub fn image_distance(&self, face: usize, peer: usize) -> Option<f64> {
        let owner = whole(&self.slices.adjacency, 2 * peer);
        let translation = vector(&self.slices.values, 4 * face + 1);
        let image = self.center(Part::Places, owner)? - translation;
        Some((self.center(Part::Geometry, face)? - image).norm())
    }

    pub fn conditions(&self) -> ResolvedScalarBoundaryConditions {
        let id = self.id(Part::Codes);
        let slices = &self.slices;
        let faces = 0..self.counts.faces;
        let conditions = faces.clone().map(|face| match slices.codes[2 * face] {
            0 => None,
            1 => Some(ScalarBoundaryCondition::FixedValue(float(
                &slices.values,
                4 * face,
            ))),
            _ => Some(ScalarBoundaryCondition::ZeroGradient),
        });
        let links = faces.map(|face| {
            let peer_face = slices.codes[2 * face + 1].checked_sub(1)?;
            let translation = vector(&slices.values, 4 * face + 1);
            Some(CyclicLink {
                peer_face,
                translation,
            })
        });
        let links: Vec<_> = links.collect();
        let map = links
            .iter()
            .any(Option::is_some)
            .then(|| periodic::access::cyclic_map(id, links));
        numerics::access::conditions(id, conditions.collect(), map)
    }

    pub fn stencil(&self) -> LeastSquaresGradientStencil {
        let slices = &self.slices;
        let cells = 0..self.counts.cells;
        let equations = cells
            .clone()
            .map(|cell| self.equations(slices.starts[cell]));
        let inverses = cells.map(|cell| std::array::from_fn(|i| slices.inverses[9 * cell + i]));
        numerics::access::stencil(
            self.id(Part::Starts),
            equations.collect(),
            inverses.collect(),
        )
    }

    fn equations(&self, start: usize) -> Vec<Equation> {
        let mut equations = Vec::new();
        let mut at = start;
        while at != 0 {
            let weight = 4 * (at - 1);
            equations.push(Equation {
                coefficient: vector(&self.slices.weights, weight),
                source: match self.slices.equations[2 * at - 2] {
                    0 => Source::ZeroNormalDerivative,
                    1 => Source::FixedValue(self.slices.weights[weight + 3]),
                    cell => Source::Neighbour(cell - 2),
                },
            });
            at = self.slices.equations[2 * at - 1];
        }
        equations
    }

    pub fn cell_numbers(&self, part: Part) -> CellField<f64> {
        fields::access::cell_field(self.id(part), self.slices.floats(part).to_vec())
    }

    pub fn cell_vectors(&self, part: Part) -> CellField<Vec3> {
        let vectors = self.slices.floats(part).chunks_exact(3);
        let vectors = vectors.map(|three| vector(three, 0)).collect();
        fields::access::cell_field(self.id(part), vectors)
    }

    pub fn face_numbers(&self, part: Part) -> FaceField<f64> {
        fields::access::face_field(self.id(part), self.slices.floats(part).to_vec())
    }

    fn id(&self, part: Part) -> MeshId {
        mesh::access::mesh_id(self.number(part))
    }
}

/// Writes a built stencil into slices of `records` equation records, unused ones zero; `None` where it
/// has more equations than that.
pub fn export_stencil(
    stencil: &LeastSquaresGradientStencil,
    records: usize,
    slices: &mut Slices,
) -> Option<()> {
    let cells = numerics::access::equations(stencil);
    if cells.iter().map(Vec::len).sum::<usize>() > records {
        return None;
    }
    slices.starts.clear();
    slices.equations.clear();
    slices.weights.clear();
    for equations in cells {
        let first = slices.equations.len() / 2 + 1;
        slices.starts.push(chain_head(first, equations.len()));
        for (place, equation) in equations.iter().enumerate() {
            let (source, value) = match equation.source {
                Source::ZeroNormalDerivative => (0, 0.0),
                Source::FixedValue(value) => (1, value),
                Source::Neighbour(cell) => (cell + 2, 0.0),
            };
            let next = chain_head(first + place + 1, equations.len() - place - 1);
            slices.equations.extend([source, next]);
            slices.weights.extend(three(equation.coefficient));
            slices.weights.push(value);
        }
    }
    slices.equations.resize(2 * records, 0);
    slices.weights.resize(4 * records, 0.0);
    slices.inverses = numerics::access::inverses(stencil).concat();
    Some(())
}

fn export_faces(
    mesh: &UnstructuredMesh,
    conditions: &ResolvedScalarBoundaryConditions,
    slices: &mut Slices,
) {
    for (place, face) in mesh.faces().iter().enumerate() {
        let neighbour = face.neighbour.map_or(0, |cell| cell + 1);
        slices.adjacency.extend([face.owner, neighbour]);
        slices.geometry.extend(three(face.center));
        slices.geometry.extend(three(face.area_vector));
        slices.geometry.extend(three(face.normal));
        slices.geometry.extend(distances(mesh, conditions, place));
    }
}

/// The two distances of a face of the Rust's mesh: to its owner, and on its other side.
pub fn distances(
    mesh: &UnstructuredMesh,
    conditions: &ResolvedScalarBoundaryConditions,
    face: usize,
) -> [f64; 2] {
    let to = |face: &Face, cell: usize| (face.center - mesh.cells()[cell].center).norm();
    let faces = mesh.faces();
    let other = match (faces[face].neighbour, conditions.cyclic_link(face)) {
        (Some(neighbour), _) => to(&faces[face], neighbour),
        (None, Some(link)) => {
            let peer = &faces[link.peer_face];
            to(peer, peer.owner)
        }
        (None, None) => 0.0,
    };
    [to(&faces[face], faces[face].owner), other]
}

fn export_cells(mesh: &UnstructuredMesh, slices: &mut Slices) {
    for cell in mesh.cells() {
        let first_face = append_chain(&mut slices.facing, &cell.faces);
        let first_neighbour = append_chain(&mut slices.bordering, &cell.neighbours);
        slices.heads.extend([first_face, first_neighbour]);
        slices.places.extend(three(cell.center));
        slices.places.push(cell.volume);
    }
}

fn export_conditions(
    mesh: &UnstructuredMesh,
    conditions: &ResolvedScalarBoundaryConditions,
    slices: &mut Slices,
) {
    for face in 0..mesh.face_count() {
        let (code, value) = match conditions.condition(face) {
            None => (0, 0.0),
            Some(ScalarBoundaryCondition::FixedValue(value)) => (1, value),
            Some(ScalarBoundaryCondition::ZeroGradient) => (2, 0.0),
        };
        let link = conditions.cyclic_link(face);
        let peer = link.map_or(0, |link| link.peer_face + 1);
        let translation = link.map_or(Vec3::ZERO, |link| link.translation);
        slices.codes.extend([code, peer]);
        slices.values.push(value);
        slices.values.extend(three(translation));
    }
}

/// Appends a record for each of `named` and gives the first one's number.
fn append_chain(records: &mut Vec<usize>, named: &[usize]) -> usize {
    let first = records.len() / 2 + 1;
    for (place, &name) in named.iter().enumerate() {
        let next = chain_head(first + place + 1, named.len() - place - 1);
        records.extend([name, next]);
    }
    chain_head(first, named.len())
}

/// The number of a chain's first record, 0 where it has none.
fn chain_head(record: usize, length: usize) -> usize {
    if length == 0 {
        0
    } else {
        record
    }
}

pub fn three(vector: Vec3) -> [f64; 3] {
    [vector.x, vector.y, vector.z]
}

fn vector(numbers: &[f64], at: usize) -> Vec3 {
    Vec3::new(
        float(numbers, at),
        float(numbers, at + 1),
        float(numbers, at + 2),
    )
}

fn float(numbers: &[f64], at: usize) -> f64 {
    numbers.get(at).copied().unwrap_or(0.0)
}

fn whole(numbers: &[usize], at: usize) -> usize {
    numbers.get(at).copied().unwrap_or(0)
}
