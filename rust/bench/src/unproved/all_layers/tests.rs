use super::*;
use crate::owned::{Ordered, Work};
use crate::unproved::{
    all_layers_by_cut, all_layers_by_cut_and_zeros, all_layers_by_section, AllLayers,
};
use meshes::shapes::torus;
use meshes::{
    closed_mesh, random_height, random_pairing, rising_heights, shared_edges, Damage, Mesh,
    OrderDamage, PairingDamage, Random,
};
use std::collections::BTreeSet;

const UNPROVED: [AllLayers; 2] = [all_layers, all_layers_by_section];

/// What All layers reads, and how long its tables are.
struct Case {
    input: Ordered,
    heights: Vec<i32>,
    room: usize,
    output: usize,
}

/// The answer, and what it leaves in the work tables and in the output.
type Outcome = (Result<usize, Refusal>, Work, Vec<u8>);

impl Case {
    fn new(mesh: Mesh, heights: Vec<i32>, random: &mut Random) -> Self {
        let mut input = Ordered::new(mesh);
        input.pairing = random_pairing(&input.mesh, random);
        Case {
            room: input.mesh.corners.len() + random.below(3),
            input,
            heights,
            output: 0,
        }
    }

    fn run(&self, all_layers: AllLayers) -> Outcome {
        let (mut left, mut output) = (Work::new(self.room), vec![77; self.output]);
        let ordered = self.input.lend();
        let answer = all_layers(ordered, &self.heights, &mut left.lend(), &mut output);
        (answer, left, output)
    }

    fn spoil(&mut self, random: &mut Random) {
        let Ordered {
            mesh,
            pairing,
            order,
        } = &mut self.input;
        match random.below(6) {
            0 | 1 => Damage::any(random).apply(mesh, random),
            2 => PairingDamage::any(random).apply(mesh, pairing, random),
            3 => OrderDamage::any(random).apply(mesh, order, random),
            4 => self.heights.extend([random_height(mesh, random); 2]),
            _ => self.room = random.below(self.room + 1),
        }
    }
}

#[test]
fn both_do_what_the_library_does() {
    let mut met = BTreeSet::new();
    for round in 0..1000 {
        let mut random = Random::of_round(1, round);
        let mesh = match random.below(2) {
            0 => closed_mesh(&mut random),
            _ => shared_edges(&mut random),
        };
        let heights = rising_heights(&mesh, &mut random);
        let mut case = Case::new(mesh, heights, &mut random);
        if random.one_in(2) {
            case.spoil(&mut random);
        }
        case.output = 200_000;
        let (answer, ..) = case.run(wadroles::all_layers);
        if let Ok(length) = answer {
            case.output = random.choose(&[0, length - 1, length, length + 5, 4 * length]);
        }
        let expected = case.run(wadroles::all_layers);
        for unproved in UNPROVED {
            assert!(case.run(unproved) == expected, "round {round}");
        }
        met.insert(expected.0.map_or_else(|refusal| refusal.number, |_| 0));
    }
    assert!(met.into_iter().eq([0, 1, 2, 3, 4, 7, 8, 9, 12, 14]));
}

#[test]
fn all_give_the_same_file_of_a_torus() {
    let mut random = Random::new(1);
    let mut mesh = torus(40, 30, 700_000, 300_000);
    for _ in 0..2 {
        let heights: Vec<i32> = (-400..400).map(|k| 751 * k).collect();
        let mut case = Case::new(mesh.clone(), heights, &mut random);
        for output in [1_000_000, 10_000_000] {
            case.output = output;
            let [active, sections] = UNPROVED.map(|version| case.run(version));
            assert!(active.0.is_ok_and(|length| length > 300_000));
            assert!(active == sections);
            for by_cut in [all_layers_by_cut, all_layers_by_cut_and_zeros] {
                let (answer, _, output) = case.run(by_cut);
                assert!((answer, &output) == (active.0, &active.2));
            }
        }
        mesh.shuffle(&mut random);
    }
}
