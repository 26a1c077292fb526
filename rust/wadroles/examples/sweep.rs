//! Sweeps part P of the specification: vertex by vertex, and then over four heights into a layer file.

use wadroles::{
    all_layers, check, start, step, CheckTables, CutTables, Mesh, OrderedMesh, PairedMesh, Refusal,
    Stepping, Sweep, WorkTables, NO_CORNER,
};

const PART_P: Mesh = Mesh {
    coords: &[0, 0, 0, 10, 0, 0, 0, 10, 0, 0, 0, 10],
    corners: &[0, 2, 1, 0, 1, 3, 0, 3, 2, 1, 2, 3],
};

fn main() -> Result<(), Refusal> {
    let mut made = CheckTables {
        pairing: &mut [0; 12],
        order: &mut [0; 4],
    };
    check(PART_P, &mut made)?;
    let ordered = OrderedMesh {
        paired: PairedMesh {
            mesh: PART_P,
            pairing: made.pairing,
        },
        order: made.order,
    };
    print_rings(ordered)?;
    print_file(ordered, &[0, 5, 10, 11])
}

fn print_rings(ordered: OrderedMesh) -> Result<(), Refusal> {
    let mut ring = [0; 12];
    let passed = start(ordered.paired.mesh, &mut ring)?;
    let mut sweep = Sweep {
        ordered,
        ring: &mut ring,
        passed,
    };
    while step(&mut sweep)? == Stepping::Stepped {
        let entries = sweep.ring.iter().enumerate();
        let crossings: Vec<String> = entries
            .filter(|&(_, &successor)| successor != NO_CORNER)
            .map(|(corner, successor)| format!("{corner} to {successor}"))
            .collect();
        println!("{} passed: {}", sweep.passed, crossings.join(", "));
    }
    Ok(())
}

fn print_file(ordered: OrderedMesh, heights: &[i32]) -> Result<(), Refusal> {
    let cut = CutTables {
        names: &mut [0; 12],
        points: &mut [0; 24],
        ends: &mut [0; 12],
        marks: &mut [0; 12],
    };
    let mut work = WorkTables {
        cut,
        ring: &mut [0; 12],
    };
    let mut output = [0; 100];
    let length = all_layers(ordered, heights, &mut work, &mut output)?;
    println!("{length} bytes: {:02X?}", &output[..length]);
    Ok(())
}
