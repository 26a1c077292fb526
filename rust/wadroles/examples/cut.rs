//! Cuts part P of the specification at four heights, and prints the contours of each layer.

use wadroles::{
    area, check, contour, cut, CheckTables, Counts, CutTables, Mesh, PairedMesh, Refusal,
};

const PART_P: Mesh = Mesh {
    coords: &[0, 0, 0, 10, 0, 0, 0, 10, 0, 0, 0, 10],
    corners: &[0, 2, 1, 0, 1, 3, 0, 3, 2, 1, 2, 3],
};

fn main() -> Result<(), Refusal> {
    let mut made = CheckTables {
        pairing: &mut [0; 12],
        order: &mut [0; 4],
    };
    check(PART_P, &mut made)?;
    let paired = PairedMesh {
        mesh: PART_P,
        pairing: made.pairing,
    };
    let mut tables = CutTables {
        names: &mut [0; 12],
        points: &mut [0; 24],
        ends: &mut [0; 12],
        marks: &mut [0; 12],
    };
    for height in [0, 5, 10, 11] {
        let counts = cut(paired, height, &mut tables)?;
        print_layer(height, counts, &tables)?;
    }
    Ok(())
}

fn print_layer(height: i32, counts: Counts, tables: &CutTables) -> Result<(), Refusal> {
    let names = &tables.names[..counts.points];
    let ends = &tables.ends[..counts.contours];
    println!("height {height}: names {names:?}, ends {ends:?}");
    for j in 0..counts.contours {
        let part = contour(tables.points, ends, j);
        println!(
            "  contour {j}: points {part:?}, doubled area {}",
            area(part)?
        );
    }
    Ok(())
}
