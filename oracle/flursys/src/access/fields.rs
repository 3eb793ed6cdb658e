//! Fields with a mesh number of choice.

use super::*;

pub fn cell_field<T>(mesh_id: MeshId, values: Vec<T>) -> CellField<T> {
    CellField { mesh_id, values }
}

pub fn face_field<T>(mesh_id: MeshId, values: Vec<T>) -> FaceField<T> {
    FaceField { mesh_id, values }
}
