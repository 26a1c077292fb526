use super::*;
use meshes::shapes::tetrahedron;
use meshes::Mesh;

const JUNK: i32 = 77;
const PAIRING: [u32; 12] = [8, 9, 3, 2, 11, 6, 5, 10, 0, 1, 7, 4];

type Answer = Result<(usize, usize), (u32, u64)>;

/// Tables of their own, filled with junk.
#[derive(Clone, Debug, PartialEq, Eq)]
struct Owned {
    names: Vec<u32>,
    points: Vec<i32>,
    ends: Vec<u32>,
    marks: Vec<u32>,
}

impl Owned {
    /// Of the lengths of names, points, ends and marks.
    fn new([names, points, ends, marks]: [usize; 4]) -> Self {
        let junk = |length| vec![JUNK as u32; length];
        Owned {
            names: junk(names),
            points: vec![JUNK; points],
            ends: junk(ends),
            marks: junk(marks),
        }
    }

    fn lend(&mut self) -> Tables<'_> {
        Tables {
            names: &mut self.names,
            points: &mut self.points,
            ends: &mut self.ends,
            marks: &mut self.marks,
        }
    }

    fn cut(&mut self, mesh: &Mesh, pairing: &[u32], height: i32) -> Answer {
        match cut(&mesh.coords, &mesh.corners, pairing, height, self.lend()) {
            Ok(layer) => Ok((layer.contours, layer.points)),
            Err(refusal) => Err((refusal.number, refusal.place)),
        }
    }
}

/// Tables with more entries than part P needs.
fn long_tables() -> Owned {
    Owned::new([13, 25, 13, 13])
}

/// The entries followed by junk, up to a length.
fn then_junk<T: Clone + From<u8>>(entries: &[T], length: usize) -> Vec<T> {
    let mut table = entries.to_vec();
    table.resize(length, T::from(JUNK as u8));
    table
}

fn assert_refused(mesh: &Mesh, pairing: &[u32], answer: (u32, u64)) {
    let mut tables = long_tables();
    assert_eq!(tables.cut(mesh, pairing, 5), Err(answer));
    assert_eq!(tables, long_tables());
}

#[test]
fn part_p_is_cut_as_in_the_document() {
    for (height, points) in [(5, [5, 0, 0, 5, 0, 0]), (10, [0; 6])] {
        let mut tables = long_tables();
        let answer = tables.cut(&tetrahedron(10), &PAIRING, height);
        assert_eq!(answer, Ok((1, 3)));
        assert_eq!(tables.names, then_junk(&[4, 10, 6], 13));
        assert_eq!(tables.points, then_junk(&points, 25));
        assert_eq!(tables.ends, then_junk(&[3], 13));
        assert_eq!(tables.marks, then_junk(&[0; 12], 13));
    }
}

#[test]
fn part_p_has_no_contour_outside() {
    for height in [i32::MIN, -1, 0, 11, i32::MAX] {
        let mut tables = long_tables();
        let expected = Owned {
            marks: then_junk(&[0; 12], 13),
            ..long_tables()
        };
        let answer = tables.cut(&tetrahedron(10), &PAIRING, height);
        assert_eq!(answer, Ok((0, 0)));
        assert_eq!(tables, expected);
    }
}

#[test]
fn short_tables_are_refused_and_stay() {
    for lengths in [
        [11, 24, 12, 12],
        [12, 23, 12, 12],
        [12, 24, 11, 12],
        [12, 24, 12, 11],
    ] {
        let mut tables = Owned::new(lengths);
        assert_eq!(tables.cut(&tetrahedron(10), &PAIRING, 5), Err((9, 0)));
        assert_eq!(tables, Owned::new(lengths));
    }
    let mut exact = Owned::new([12, 24, 12, 12]);
    assert_eq!(exact.cut(&tetrahedron(10), &PAIRING, 5), Ok((1, 3)));
}

#[test]
fn wrong_meshes_are_refused_as_in_check() {
    let refused = |change: fn(&mut Mesh), answer| {
        let mut mesh = tetrahedron(10);
        change(&mut mesh);
        assert_refused(&mesh, &PAIRING, answer);
    };
    refused(|p| p.coords.push(0), (1, 0));
    refused(|p| p.corners.push(0), (1, 0));
    refused(|p| p.coords[5] = 1_048_577, (2, 5));
    refused(|p| p.corners[4] = 4, (3, 4));
    refused(|p| p.corners[8] = 0, (4, 6));
    refused(|p| p.flip_triangle(1), (7, 2));
}

#[test]
fn wrong_pairings_are_refused_at_the_least_corner() {
    let refused = |change: fn(&mut Vec<u32>), answer| {
        let mut pairing = PAIRING.to_vec();
        change(&mut pairing);
        assert_refused(&tetrahedron(10), &pairing, answer);
    };
    // The last entry is missing, and with it the way back from corner 4.
    refused(|p| p.truncate(11), (7, 4));
    refused(|p| p.clear(), (7, 0));
    // No corner.
    refused(|p| p[2] = 12, (7, 2));
    refused(|p| p[2] = u32::MAX, (7, 2));
    // Paired back, but without the reverse edge.
    refused(|p| (p[9], p[10], p[1], p[7]) = (7, 1, 10, 9), (7, 1));
    refused(|p| p[11] = 11, (7, 4));
    // An entry that is not needed is ignored.
    let longer = [PAIRING.as_slice(), &[99]].concat();
    assert_eq!(long_tables().cut(&tetrahedron(10), &longer, 5), Ok((1, 3)));
}

#[test]
fn a_reverse_edge_must_be_paired_back() {
    // Part P twice over the same vertices: corners 12 to 23 are 0 to 11 once more.
    let mut twice = tetrahedron(10);
    twice.corners.extend(tetrahedron(10).corners);
    let mut pairing = PAIRING.to_vec();
    pairing.extend(PAIRING.map(|corner| corner + 12));
    let mut tables = Owned::new([24, 48, 24, 24]);
    assert_eq!(tables.cut(&twice, &pairing, 5), Ok((2, 6)));
    pairing[3] += 12;
    assert_eq!(tables.cut(&twice, &pairing, 5), Err((7, 2)));
}

#[test]
fn after_refusal_16_the_entries_asked_for_are_zero() {
    let part_p = tetrahedron(10);
    let plane = Plane {
        coords: &part_p.coords,
        corners: &part_p.corners,
        height: 5,
    };
    let mut tables = long_tables();
    let refusal = tables.lend().write(plane, Err(10)).unwrap_err();
    assert_eq!((refusal.number, refusal.place), (16, 10));
    assert_eq!(tables.names, then_junk(&[0; 12], 13));
    assert_eq!(tables.points, then_junk(&[0; 24], 25));
    assert_eq!(tables.ends, then_junk(&[0; 12], 13));
    assert_eq!(tables.marks, then_junk(&[0; 12], 13));
}
