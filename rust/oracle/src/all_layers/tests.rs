use super::*;
use meshes::shapes::tetrahedron;
use meshes::Mesh;

const JUNK: u8 = 77;
const PAIRING: [u32; 12] = [8, 9, 3, 2, 11, 6, 5, 10, 0, 1, 7, 4];

/// The layer file of part P.
const FILE_P: [u8; 23] = [
    0x04, 0x00, 0x00, 0x0A, 0x01, 0x03, 0x0A, 0x00, 0x09, 0x0A, 0x00, 0x09, 0x14, 0x01, 0x03, 0x00,
    0x00, 0x00, 0x00, 0x00, 0x00, 0x16, 0x00,
];

/// All layers in one of the profiles.
type AllLayers = fn(Sweep, &[i32], Tables, &mut [u32], &mut [u8]) -> Result<usize, Refusal>;

/// What All layers reads, and how long its tables are.
#[derive(Clone)]
struct Case {
    mesh: Mesh,
    pairing: Vec<u32>,
    order: Vec<u32>,
    heights: Vec<i32>,
    work: usize,
    ring: usize,
    output: usize,
}

/// The answer, the output, and what is left in the work tables.
#[derive(Debug, PartialEq)]
struct Outcome {
    answer: Result<usize, (u32, u64)>,
    output: Vec<u8>,
    work: Work,
}

#[derive(Debug, PartialEq)]
enum Work {
    Zero,
    AsBefore,
}

impl Case {
    fn part_p() -> Self {
        Case {
            mesh: tetrahedron(10),
            pairing: PAIRING.to_vec(),
            order: vec![0, 1, 2, 3],
            heights: vec![0, 5, 10, 11],
            work: 13,
            ring: 14,
            output: 25,
        }
    }

    fn run(&self) -> Outcome {
        self.run_by(all_layers)
    }

    fn run_by(&self, all_layers: AllLayers) -> Outcome {
        let junk = |length| vec![u32::from(JUNK); length];
        let (mut names, mut ends) = (junk(self.work), junk(self.work));
        let (mut marks, mut ring) = (junk(self.work), junk(self.ring));
        let mut points = vec![i32::from(JUNK); 2 * self.work];
        let mut output = vec![JUNK; self.output];
        let tables = Tables {
            names: &mut names,
            points: &mut points,
            ends: &mut ends,
            marks: &mut marks,
        };
        let sweep = Sweep {
            coords: &self.mesh.coords,
            corners: &self.mesh.corners,
            pairing: &self.pairing,
            order: &self.order,
        };
        let answer = all_layers(sweep, &self.heights, tables, &mut ring, &mut output);

        let points = points.iter().map(|&x| x as u32).collect();
        Outcome {
            answer: answer.map_err(|refusal| (refusal.number, refusal.place)),
            output,
            work: self.state_of([names, ends, marks, ring], points),
        }
    }

    /// Whether the work tables are zero as far as needed, which must go for all, or as before.
    fn state_of(&self, tables: [Vec<u32>; 4], points: Vec<u32>) -> Work {
        let corners = self.mesh.corners.len();
        let mut tables: Vec<_> = tables.into_iter().map(|table| (table, corners)).collect();
        tables.push((points, 2 * corners));
        let junk = |entries: &[u32]| entries.iter().all(|&e| e == u32::from(JUNK));
        if tables.iter().all(|(table, _)| junk(table)) {
            return Work::AsBefore;
        }
        for (table, needed) in tables {
            let zeros = table.iter().take_while(|&&entry| entry == 0).count();
            assert_eq!(zeros, needed);
            assert!(junk(&table[needed..]));
        }
        Work::Zero
    }
}

fn assert_refused(change: impl FnOnce(&mut Case), answer: (u32, u64)) {
    let mut case = Case::part_p();
    change(&mut case);
    let expected = Outcome {
        answer: Err(answer),
        output: vec![JUNK; case.output],
        work: if answer.0 == 14 {
            Work::Zero
        } else {
            Work::AsBefore
        },
    };
    assert_eq!(case.run(), expected);
}

#[test]
fn part_p_has_the_file_of_the_document() {
    let expected = Outcome {
        answer: Ok(23),
        output: [&FILE_P[..], &[JUNK; 2]].concat(),
        work: Work::Zero,
    };
    assert_eq!(Case::part_p().run(), expected);
}

#[test]
fn output_shorter_than_the_file_is_refused() {
    for output in 0..23 {
        assert_refused(|case| case.output = output, (14, 0));
    }
    let mut exact = Case::part_p();
    exact.output = 23;
    assert_eq!(exact.run().output, FILE_P);
}

#[test]
fn refusals_stand_in_order() {
    assert_refused(|case| case.heights = (0..4_097).collect(), (1, 0));
    assert_refused(|case| case.mesh.coords.push(0), (1, 0));
    assert_refused(|case| case.mesh.corners.push(0), (1, 0));
    assert_refused(|case| case.work = 11, (9, 0));
    assert_refused(|case| case.ring = 11, (9, 0));
    assert_refused(|case| case.mesh.coords[5] = 1_048_577, (2, 5));
    assert_refused(|case| case.mesh.corners[4] = 4, (3, 4));
    assert_refused(|case| case.mesh.corners[8] = 0, (4, 6));
    assert_refused(|case| case.pairing[11] = 11, (7, 4));
    assert_refused(|case| case.order.swap(1, 2), (8, 1));
    for place in 1..4 {
        for fall in [0, 1, i32::MAX] {
            let fall = |case: &mut Case| {
                let before = case.heights[place - 1];
                case.heights[place] = before.saturating_sub(fall);
            };
            assert_refused(fall, (12, place as u64));
        }
    }
}

#[test]
fn default_heights_stand_between_the_lowest_and_the_highest_vertex() {
    let heights = |z: &[i32]| {
        let coords: Vec<i32> = z.iter().flat_map(|&z| [0, 0, z]).collect();
        default_heights(&coords)
    };
    assert_eq!(heights(&[]), []);
    assert_eq!(heights(&[7]), []);
    assert_eq!(heights(&[7, 56]), []);
    assert_eq!(heights(&[57, 20, 7]), [57]);
    assert_eq!(heights(&[156, 7]), [57]);
    assert_eq!(heights(&[7, 157, 7]), [57, 157]);
    assert_eq!(heights(&[-60, -320]), [-270, -170, -70]);
    assert_eq!(heights(&[0, 50 + 100 * 4_095 + 99]).len(), 4_096);
    assert_eq!(heights(&[0, 50 + 100 * 4_096]).len(), 4_097);
    assert_eq!(heights(&[i32::MIN, i32::MAX]).len(), 4_097);
    assert_eq!(heights(&[i32::MAX, i32::MAX]), []);
    assert_eq!(heights(&[i32::MAX - 50, i32::MAX]), [i32::MAX]);
    assert_eq!(heights(&[i32::MIN, i32::MIN + 50]), [i32::MIN + 50]);
}

#[test]
fn default_heights_are_taken_where_none_are_given() {
    let mut case = Case::part_p();
    case.mesh = tetrahedron(200);
    case.heights.clear();
    let by_default = case.run();
    case.heights = vec![50, 150];
    assert_eq!(case.run(), by_default);

    case.mesh.coords[11] = 50 + 100 * 4_095;
    case.heights.clear();
    case.output = 100_000;
    assert!(case.run().answer.is_ok());
    case.mesh.coords[11] += 100;
    assert_eq!(case.run().answer, Err((1, 0)));
}

#[test]
fn without_vertices_the_file_has_no_layer() {
    let mut case = Case::part_p();
    case.mesh = Mesh::default();
    case.heights.clear();
    let expected = Outcome {
        answer: Ok(1),
        output: [&[0][..], &[JUNK; 24]].concat(),
        work: Work::AsBefore,
    };
    assert_eq!(case.run(), expected);
}

/// The layer file of part P in the clean profile: at height 10 its three points are one.
const CLEAN_FILE_P: [u8; 16] = [
    0x04, 0x00, 0x00, 0x0A, 0x01, 0x03, 0x0A, 0x00, 0x09, 0x0A, 0x00, 0x09, 0x14, 0x00, 0x16, 0x00,
];

#[test]
fn a_layer_that_loses_its_contours_stays_in_the_clean_file() {
    let part_p = Case::part_p();
    let expected = Outcome {
        answer: Ok(16),
        output: [&CLEAN_FILE_P[..], &[JUNK; 9]].concat(),
        work: Work::Zero,
    };
    assert_eq!(part_p.run_by(all_layers_clean), expected);
    for output in 0..16 {
        let short = Case {
            output,
            ..part_p.clone()
        };
        let expected = Outcome {
            answer: Err((14, 0)),
            output: vec![JUNK; output],
            work: Work::Zero,
        };
        assert_eq!(short.run_by(all_layers_clean), expected);
    }
}

#[test]
fn both_profiles_refuse_alike() {
    let changes: [fn(&mut Case); 7] = [
        |case| case.heights = (0..4_097).collect(),
        |case| case.ring = 11,
        |case| case.mesh.coords[5] = 1_048_577,
        |case| case.mesh.corners[8] = 0,
        |case| case.pairing[11] = 11,
        |case| case.order.swap(1, 2),
        |case| case.heights[3] = 10,
    ];
    for change in changes {
        let mut case = Case::part_p();
        change(&mut case);
        let full = case.run();
        assert!(full.answer.is_err());
        assert_eq!(case.run_by(all_layers_clean), full);
    }
}
