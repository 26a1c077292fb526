//! All layers by a section of the whole mesh at each height, made twice: to find the length of the
//! file, and to write it.

use super::cut::{below, mark_successors, outline};
use super::layer_file::{clear, layer_length, test, write_layer};
use super::numbers::{plain_length, Writer};
use super::tables::{front, refuse};
use wadroles::{Counts, CutTables, OrderedMesh, PairedMesh, Refusal, WorkTables};

/// Does what `wadroles::all_layers` does.
pub fn all_layers(
    ordered: OrderedMesh<'_>,
    heights: &[i32],
    work: &mut WorkTables<'_>,
    output: &mut [u8],
) -> Result<usize, Refusal> {
    let heights = test(ordered, heights, work)?;
    let n = ordered.paired.mesh.corners.len();
    let mut work = WorkTables {
        cut: front(&mut work.cut, n),
        ring: &mut work.ring[..n],
    };
    let answer = sweep(ordered.paired, &heights, &mut work.cut, output);
    clear(&mut work);
    answer
}

fn sweep(
    paired: PairedMesh<'_>,
    heights: &[i32],
    tables: &mut CutTables<'_>,
    output: &mut [u8],
) -> Result<usize, Refusal> {
    let mut length = plain_length(heights.len() as u32);
    for &h in heights {
        let counts = section(paired, h, tables)?;
        length += layer_length(h, counts, tables);
    }
    if output.len() < length {
        return refuse(Refusal::OUTPUT, 0);
    }
    let mut writer = Writer::new(output);
    writer.plain(heights.len() as u32);
    for &h in heights {
        let counts = section(paired, h, tables)?;
        write_layer(h, counts, tables, &mut writer);
    }
    Ok(length)
}

fn section(paired: PairedMesh<'_>, h: i32, tables: &mut CutTables<'_>) -> Result<Counts, Refusal> {
    mark_successors(paired, below(paired.mesh.coords, h), tables.marks);
    outline(paired.mesh, h, tables)
}
