//! The layer file by Cut of the library: its layer at each height, encoded here.

use super::layer_file::{clear, write_layer};
use super::numbers::Writer;
use super::tables::test_order;
use wadroles::{cut, OrderedMesh, Refusal, WorkTables};

/// Writes what `wadroles::all_layers` writes at heights that are given and rise, into an output that
/// is long enough. It leaves the work tables as Cut does.
pub fn all_layers(
    ordered: OrderedMesh<'_>,
    heights: &[i32],
    work: &mut WorkTables<'_>,
    output: &mut [u8],
) -> Result<usize, Refusal> {
    let mut writer = Writer::new(output);
    writer.plain(heights.len() as u32);
    for &h in heights {
        let counts = cut(ordered.paired, h, &mut work.cut)?;
        write_layer(h, counts, &work.cut, &mut writer);
    }
    Ok(writer.position())
}

/// The same with what All layers owes besides, at every call: refusal 8, and zeros in the work tables,
/// which are as long as they need be.
pub fn all_layers_and_zeros(
    ordered: OrderedMesh<'_>,
    heights: &[i32],
    work: &mut WorkTables<'_>,
    output: &mut [u8],
) -> Result<usize, Refusal> {
    test_order(ordered)?;
    let length = all_layers(ordered, heights, work, output)?;
    clear(work);
    Ok(length)
}
