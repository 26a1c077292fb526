use crate::comparison::{Bench, Comparison, Kind};
use crate::inputs::{flap_kinds, kinds, tori};
use crate::owned::{lend, JUNK};
use crate::unproved::{self, Check};
use crate::versions::{Subject, Version};
use meshes::Mesh;
use std::hint::black_box;
use wadroles::CheckTables;

/// Check.
pub fn benches() -> Vec<Box<dyn Bench>> {
    let mut rows = kinds(Checked::new);
    rows.extend(flap_kinds(Checked::new));
    rows.push(Kind::new("torus, by sorting", tori(), Checked::by_sorting));
    vec![Box::new(Comparison::new("check", "triangles", rows))]
}

/// A mesh, with the tables lent to check.
struct Checked {
    mesh: Mesh,
    pairing: Vec<u32>,
    order: Vec<u32>,
    unproved: Check,
}

impl Checked {
    fn new(mesh: Mesh) -> Self {
        Checked {
            pairing: vec![JUNK; mesh.corners.len()],
            order: vec![JUNK; mesh.vertex_count()],
            mesh,
            unproved: unproved::check,
        }
    }

    fn by_sorting(mesh: Mesh) -> Self {
        Checked {
            unproved: unproved::check_by_sorting,
            ..Checked::new(mesh)
        }
    }
}

impl Subject for Checked {
    type Answer = ();
    type Left = (Vec<u32>, Vec<u32>);

    fn size(&self) -> usize {
        self.mesh.triangle_count()
    }

    fn calls(&self) -> usize {
        1
    }

    fn refill(&mut self) {
        self.pairing.fill(JUNK);
        self.order.fill(JUNK);
    }

    fn call(&mut self, version: Version, _call: usize) -> Self::Answer {
        let check = black_box(match version {
            Version::Library => wadroles::check,
            Version::Unproved => self.unproved,
        });
        let mut tables = CheckTables {
            pairing: &mut self.pairing,
            order: &mut self.order,
        };
        check(black_box(lend(&self.mesh)), &mut tables).expect("the mesh passes");
    }

    fn left(&self) -> Self::Left {
        (self.pairing.clone(), self.order.clone())
    }
}
