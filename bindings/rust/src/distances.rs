//! The two distances that each face carries beside its geometry.
//!
//! Those of a face with a link depend on the link. So a mesh holds the geometry with the distances that it has
//! without links, and conditions with links hold one of their own.

use crate::conditions::Conditions;
use crate::ffi;
use crate::fields::FaceField;
use crate::mesh::Mesh;
use crate::refusal::Refusal;

/// The numbers of a face: centre, area vector and normal, three numbers each, own and other distance.
pub(crate) const FACE_NUMBERS: usize = 11;
/// Where its own distance stands; the other one is the next.
const OWN: usize = 9;

/// What [`Mesh::face_distances`] hands out. A distance of two centres is the correctly rounded root of
/// (x·x + y·y) + z·z, of the difference of the two.
#[derive(Clone, Debug, PartialEq)]
pub struct Distances {
    /// Of each face's centre from its owner's.
    pub own: FaceField,
    /// On the other side: of the face's centre from its neighbour's; of a linked face, its peer's own distance;
    /// +0.0 where there is no other side.
    pub other: FaceField,
}

impl Mesh {
    /// The distances of each face under conditions, of which the links count. The calls are lent the same ones;
    /// there is no need to ask for them first.
    ///
    /// # Errors
    ///
    /// 1 to 3, 14, 6.
    pub fn face_distances(&self, conditions: &Conditions) -> Result<Distances, Refusal> {
        let mut geometry = self.geometry.clone();
        self.put_distances(conditions.number, &conditions.codes, &mut geometry)?;
        let at = |place: usize| {
            let faces = geometry.chunks_exact(FACE_NUMBERS);
            FaceField::new(self, faces.map(|face| face[place]).collect())
        };
        Ok(Distances {
            own: at(OWN),
            other: at(OWN + 1),
        })
    }

    /// Per face, as a call under these conditions is lent it: centre, area vector, normal, three numbers each;
    /// own and other distance. With links it is made by the first call that asks for it, and stays with the
    /// conditions until another link is set. Without, and of conditions of another mesh, it is [`Mesh::geometry`].
    pub fn geometry_under<'a>(&'a self, conditions: &'a Conditions) -> &'a [f64] {
        match &conditions.linked {
            Some(linked) if conditions.number == self.number() => {
                linked.get_or_init(|| self.geometry_with(&conditions.codes))
            }
            _ => &self.geometry,
        }
    }

    /// The geometry with the distances of the links in `codes`. Where the engine refuses them, the distances stay
    /// what they were: by the same checks, which come before 20, it refuses every call that is lent the two.
    pub(crate) fn geometry_with(&self, codes: &[usize]) -> Vec<f64> {
        let mut geometry = self.geometry.clone();
        let _ = self.put_distances(self.number(), codes, &mut geometry);
        geometry
    }

    fn put_distances(
        &self,
        number: u64,
        codes: &[usize],
        geometry: &mut [f64],
    ) -> Result<(), Refusal> {
        ffi::face_distances(
            self.counts(),
            self.adjacency(),
            self.places(),
            number,
            codes,
            geometry,
        )
    }
}

#[cfg(test)]
mod tests;
