use super::{Given, WorkTables};
use crate::harness::{call_c, lent_tables, mostly_long, refused, Answer, Lent, Operation, Tables};
use meshes::Random;
use wadroles::raw::{wadroles_all_layers, wadroles_all_layers_clean};

/// The operation "All layers", in the full profile or the clean one.
pub struct AllLayersIn<const CLEAN: bool>;

/// The operation "All layers".
pub type AllLayers = AllLayersIn<false>;

/// The operation "All layers clean".
pub type AllLayersClean = AllLayersIn<true>;

lent_tables! {
    /// The tables lent to All layers.
    FileTables { work: WorkTables, output: Lent<u8> }
}

impl<const CLEAN: bool> AllLayersIn<CLEAN> {
    /// The length of the file, or of a small one where none is written.
    fn file_length(given: &Given) -> usize {
        let needed = WorkTables::needed(given.corners());
        let mut tables = FileTables {
            work: WorkTables::filled(&needed, &mut Random::new(1)),
            output: Lent::new(1 << 12, &mut Random::new(1)),
        };
        loop {
            match Self::oracle(given, &mut tables) {
                Ok(length) => return length,
                Err((14, _)) => {
                    let longer = 64 * tables.output.length();
                    tables.output = Lent::new(longer, &mut Random::new(1));
                }
                Err(_) => return 10,
            }
        }
    }
}

impl<const CLEAN: bool> Operation for AllLayersIn<CLEAN> {
    const NAME: &'static str = if CLEAN {
        "all layers clean"
    } else {
        "all layers"
    };
    const REFUSALS: &'static [u32] = &[1, 9, 2, 3, 4, 7, 8, 12, 14];
    type Input = Given;
    type Tables = FileTables;
    /// The length of the file.
    type Values = usize;

    fn lengths(given: &Given) -> Vec<usize> {
        let mut lengths = WorkTables::needed(given.corners());
        lengths.push(Self::file_length(given));
        lengths
    }

    /// The output is as long as the file, or too short, or longer, each in a third of the cases.
    fn random_lengths(given: &Given, random: &mut Random) -> Vec<usize> {
        let mut lengths = mostly_long(&WorkTables::needed(given.corners()), random);
        let file = Self::file_length(given);
        lengths.push(match random.below(3) {
            0 => file,
            1 => random.below(file),
            _ => file + random.below(9),
        });
        lengths
    }

    fn product(given: &Given, tables: &mut FileTables) -> Answer<usize> {
        let mut work = wadroles::WorkTables {
            cut: tables.work.cut.lend(),
            ring: tables.work.ring.table(),
        };
        let all_layers = match CLEAN {
            false => wadroles::all_layers,
            true => wadroles::all_layers_clean,
        };
        let output = tables.output.table();
        all_layers(given.lend_ordered(), &given.heights, &mut work, output).map_err(refused)
    }

    fn call_c(given: &Given, tables: &mut FileTables, out: &mut [u64; 4]) -> u32 {
        let all_layers = match CLEAN {
            false => wadroles_all_layers,
            true => wadroles_all_layers_clean,
        };
        call_c!(all_layers(
            read given.mesh.coords,
            read given.mesh.corners,
            read given.pairing,
            read given.order,
            read given.heights,
            lend tables.work.cut.names,
            lend tables.work.cut.points,
            lend tables.work.cut.ends,
            lend tables.work.cut.marks,
            lend tables.work.ring,
            lend tables.output,
        ), out)
    }

    fn oracle(given: &Given, tables: &mut FileTables) -> Answer<usize> {
        let (lent, ring) = (tables.work.cut.for_oracle(), tables.work.ring.table());
        let all_layers = match CLEAN {
            false => oracle::all_layers,
            true => oracle::all_layers_clean,
        };
        let output = tables.output.table();
        all_layers(given.for_oracle(), &given.heights, lent, ring, output)
            .map_err(|r| (r.number, r.place))
    }

    fn words(_given: &Given, length: usize) -> Vec<u64> {
        vec![length as u64]
    }
}
