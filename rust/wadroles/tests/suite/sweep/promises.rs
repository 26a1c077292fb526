//! What the specification says of every list of calls, asked of the product. The oracle has no part in
//! it.

use crate::harness::{long, Answer, Lent, Operation, Rounds, Tables};
use crate::inputs::random_mesh;
use crate::operations::{Cut, CutTables, Given, Layer, Ring, Start, Step, WorkTables};
use meshes::{random_height, OrderDamage, PairingDamage, Random, RingDamage};
use wadroles::NO_CORNER;

/// Tables of a layer that are long enough for so many corners.
fn long_tables(corners: usize, random: &mut Random) -> CutTables {
    let needed = CutTables::needed(corners).into_iter();
    let lengths: Vec<usize> = needed.map(|needed| long(needed, random)).collect();
    CutTables::filled(&lengths, random)
}

/// A sweep on a right mesh, with its pairing and order, and the plain sweep beside it.
#[derive(Clone)]
pub struct Run {
    pub given: Given,
    ring: Ring,
    /// The plane's position in the plain sweep.
    pub position: usize,
}

impl Run {
    fn start(random: &mut Random) -> Self {
        Run::over(Given::paired(random_mesh(random), random), random)
    }

    pub fn over(given: Given, random: &mut Random) -> Self {
        let length = long(given.corners(), random);
        let mut ring = Ring {
            ring: Lent::new(length, random),
        };
        assert_eq!(Start::product(&given, &mut ring), Ok(0));
        Run {
            given,
            ring,
            position: 0,
        }
    }

    pub fn corners(&self) -> usize {
        self.given.corners()
    }

    /// The number of vertices with z < h.
    pub fn below(&self, h: i32) -> usize {
        let points = self.given.mesh.coords.chunks(3);
        points.filter(|point| point[2] < h).count()
    }

    pub fn step(&mut self) {
        let before = self.ring.clone();
        let top = self.given.mesh.vertex_count();
        let answer = Step::product(&self.given, &mut self.ring);
        if self.position == top {
            assert_eq!(answer, Ok(None));
            assert_eq!(self.ring.ring, before.ring);
            return;
        }
        self.position += 1;
        assert_eq!(answer, Ok(Some(self.position)));
        self.given.passed = self.position;
        let vertex = self.given.order[self.position - 1];
        for corner in 0..self.corners() {
            let first = self.given.pairing[corner] as usize / 3 * 3;
            let paired = &self.given.mesh.corners[first..first + 3];
            if !paired.contains(&vertex) {
                let entry = |ring: &Ring| ring.ring.view()[corner];
                assert_eq!(entry(&self.ring), entry(&before));
            }
        }
    }

    pub fn rise(&mut self, h: i32, random: &mut Random) {
        let mut cut_tables = long_tables(self.corners(), random);
        let before = self.ring.ring.clone();
        let (answer, left) = self.layer(h, cut_tables.clone());
        // A passed vertex lies at h or above exactly if fewer than those passed lie below.
        if self.below(h) < self.position {
            assert_eq!(answer, Err((12, 0)));
            assert_eq!(self.ring.ring, before);
            return;
        }
        self.position = self.below(h);
        let cut = Cut::product(&self.given.clone().at(h), &mut cut_tables);
        let (contours, points) = cut.unwrap();
        assert_eq!(answer, Ok((self.position, contours, points)));
        assert_eq!(left.difference(&cut_tables), None);
        self.given.passed = self.position;
    }

    /// The answer of a rise, and what it leaves in the tables of the layer.
    fn layer(&mut self, h: i32, cut: CutTables) -> (Answer<(usize, usize, usize)>, CutTables) {
        let mut work = WorkTables {
            cut,
            ring: self.ring.ring.clone(),
        };
        let answer = Layer::product(&self.given.clone().at(h), &mut work);
        self.ring.ring = work.ring;
        (answer, work.cut)
    }

    /// A call that is refused, on tables of its own.
    fn refused_call(&self, random: &mut Random) {
        let mut copy = self.clone();
        let given = &mut copy.given;
        let h = random_height(&given.mesh, random);
        match random.below(4) {
            0 => given.passed = given.mesh.vertex_count() + 1 + random.below(9),
            1 => PairingDamage::any(random).apply(&given.mesh, &mut given.pairing, random),
            2 => OrderDamage::any(random).apply(&given.mesh, &mut given.order, random),
            _ => RingDamage::any(random).apply(copy.ring.ring.table(), random),
        }
        let before = copy.ring.ring.clone();
        let is_refused = match random.below(2) {
            0 => Step::product(&copy.given, &mut copy.ring).is_err(),
            _ => {
                let cut = long_tables(copy.corners(), random);
                copy.layer(h, cut).0.is_err()
            }
        };
        if is_refused {
            assert_eq!(copy.ring.ring, before);
        }
    }

    pub fn any_call(&mut self, random: &mut Random) {
        match random.below(5) {
            0 | 1 => self.step(),
            2 | 3 => self.rise(random_height(&self.given.mesh, random), random),
            _ => self.refused_call(random),
        }
    }

    fn is_passed(&self, vertex: u32) -> bool {
        self.given.order[..self.position].contains(&vertex)
    }

    /// Whether each corner is rising.
    pub fn rising(&self) -> Vec<bool> {
        let passed: Vec<bool> = (0..self.given.mesh.vertex_count() as u32)
            .map(|vertex| self.is_passed(vertex))
            .collect();
        let edges = self.given.mesh.edges();
        edges
            .map(|(start, end)| passed[start as usize] && !passed[end as usize])
            .collect()
    }

    /// The ring entries are those of a cut made afresh at the position.
    pub fn assert_entries(&self) {
        let rising = self.rising();
        for corner in 0..self.corners() {
            let entry = self.ring.ring.view()[corner];
            if rising[corner] {
                let successor = entry as usize;
                assert!(rising[successor]);
                assert_eq!(successor / 3, self.given.pairing[corner] as usize / 3);
            } else {
                assert_eq!(entry, NO_CORNER);
            }
        }
    }

    /// From each crossed edge the entries lead back to it, meeting no crossing twice on the way.
    pub fn assert_rings(&self) {
        let rising = self.rising();
        let ring = self.ring.ring.view();
        for start in (0..self.corners()).filter(|&corner| rising[corner]) {
            let mut met = vec![false; self.corners()];
            let mut corner = start;
            loop {
                assert!(!met[corner], "a crossing is met twice");
                met[corner] = true;
                corner = ring[corner] as usize;
                if corner == start {
                    break;
                }
            }
        }
    }
}

#[test]
fn after_any_list_the_rings_are_those_of_the_plain_sweep() {
    let share = Rounds::one_in(50, "sweep, plain sweep").share(|random| {
        let mut run = Run::start(random);
        for _ in 0..random.below(12) {
            run.any_call(random);
        }
        assert_eq!(run.given.passed, run.position);
        run.assert_entries();
        run.assert_rings();
        run.rising().contains(&true)
    });
    assert!(share > 0.2, "too few lists end with a crossing: {share}");
}

#[test]
fn steps_lead_from_the_bottom_to_the_top() {
    let share = Rounds::one_in(1000, "sweep, all steps").share(|random| {
        let mut run = Run::start(random);
        for _ in 0..=run.given.mesh.vertex_count() {
            run.step();
            run.assert_entries();
        }
        assert_eq!(run.position, run.given.mesh.vertex_count());
        run.corners() > 0
    });
    assert!(share > 0.5, "too few meshes have triangles: {share}");
}

#[test]
fn rises_over_rising_heights_give_every_cut() {
    let share = Rounds::one_in(100, "sweep, rising heights").share(|random| {
        let mut run = Run::start(random);
        let mut heights = [(); 8].map(|()| random_height(&run.given.mesh, random));
        heights.sort();
        for h in heights {
            run.rise(h, random);
            assert_eq!(run.position, run.below(h));
        }
        run.assert_entries();
        run.corners() > 0
    });
    assert!(share > 0.5, "too few meshes have triangles: {share}");
}
