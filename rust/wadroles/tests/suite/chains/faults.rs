//! Faults that the chains notice: each version here does what the product does but for one.

use super::chain::compare_chains;
use crate::harness::{assert_told, Answer, Operation, Rounds};
use crate::operations::{
    AllLayers, AllLayersClean, Area, CallTables, Check, CheckTables, Clean, Contour, Cut,
    CutTables, Drawing, Ends, FileTables, FlatLayer, Given, GivenLayer, Ink, Job, Layer, LayerFile,
    NestTables, Nesting, Part, Preview, PreviewRun, ReadLayer, ReadLayerClean, ReadPart, Ring,
    Start, Step, Versions, WorkTables, Xy,
};

fn last_height_left(file: &Vec<u8>, tables: &mut Part) -> Answer<(usize, usize, usize)> {
    let before = tables.heights.clone();
    let counts = ReadPart::product(file, tables)?;
    if counts.2 > 0 {
        tables.heights.table()[counts.2 - 1] = before.view()[counts.2 - 1];
    }
    Ok(counts)
}

fn order_from_above(given: &Given, tables: &mut CheckTables) -> Answer<()> {
    Check::product(given, tables)?;
    tables.order.table()[..given.mesh.vertex_count()].reverse();
    Ok(())
}

fn point_moved(given: &Given, tables: &mut CutTables) -> Answer<(usize, usize)> {
    let counts = Cut::product(given, tables)?;
    if let Some(last) = tables.points.table()[..2 * counts.1].last_mut() {
        *last += 1;
    }
    Ok(counts)
}

fn last_point_dropped(input: &Ends, (): &mut ()) -> Answer<(usize, usize)> {
    let (first, length) = Contour::product(input, &mut ())?;
    Ok((first, length.saturating_sub(2)))
}

fn area_turned_round(points: &Vec<i32>, (): &mut ()) -> Answer<i64> {
    Area::product(points, &mut ()).map(|doubled| -doubled)
}

fn one_passed_at_first(given: &Given, tables: &mut Ring) -> Answer<usize> {
    Start::product(given, tables).map(|passed| passed + 1)
}

fn step_leaves_the_rings(given: &Given, tables: &mut Ring) -> Answer<Option<usize>> {
    Step::product(given, &mut tables.clone())
}

fn rise_refused(given: &Given, tables: &mut WorkTables) -> Answer<(usize, usize, usize)> {
    Layer::product(given, &mut tables.clone())?;
    Err((16, 0))
}

fn marks_left(given: &Given, tables: &mut FileTables) -> Answer<usize> {
    let before = tables.work.cut.marks.clone();
    let answer = AllLayers::product(given, tables);
    if answer == Err((14, 0)) {
        tables.work.cut.marks = before;
    }
    answer
}

fn left_over_byte_taken(
    input: &LayerFile,
    tables: &mut FlatLayer,
) -> Answer<(usize, i32, usize, usize)> {
    match ReadLayer::product(input, tables) {
        Err((13, place)) if place + 1 == input.file.len() as u64 => {
            let without = LayerFile::new(&input.file[..place as usize], input.i);
            ReadLayer::product(&without, tables)
        }
        answer => answer,
    }
}

fn moves_told_as_lines(input: &Drawing, tables: &mut Xy) -> Answer<u64> {
    let kind = Preview::product(input, tables)?;
    Ok(if kind == 0 { 1 } else { kind })
}

fn last_kind_left(input: &Drawing, tables: &mut CallTables) -> Answer<usize> {
    let before = tables.kinds.clone();
    let filled = PreviewRun::product(input, tables)?;
    if let Some(last) = filled.checked_sub(1) {
        tables.kinds.table()[last] = before.view()[last];
    }
    Ok(filled)
}

fn last_end_left(layer: &GivenLayer, tables: &mut FlatLayer) -> Answer<(usize, usize)> {
    let before = tables.ends.clone();
    let counts = Clean::product(layer, tables)?;
    if let Some(last) = counts.0.checked_sub(1) {
        tables.ends.table()[last] = before.view()[last];
    }
    Ok(counts)
}

fn full_file_written(given: &Given, tables: &mut FileTables) -> Answer<usize> {
    AllLayers::product(given, tables)
}

fn unclean_taken(input: &LayerFile, tables: &mut FlatLayer) -> Answer<(usize, i32, usize, usize)> {
    ReadLayer::product(input, tables)
}

fn one_more_charged(job: &Job, (): &mut ()) -> Answer<u64> {
    Ink::product(job, &mut ()).map(|charge| charge + 1)
}

fn last_parent_left(layer: &GivenLayer, tables: &mut NestTables) -> Answer<()> {
    let before = tables.parents.clone();
    Nesting::product(layer, tables)?;
    if let Some(last) = layer.ends.len().checked_sub(1) {
        tables.parents.table()[last] = before.view()[last];
    }
    Ok(())
}

/// The product but for one operation, and that operation.
fn faulty() -> [(Versions, &'static str); 17] {
    let right = Versions::default();
    let faults: [(fn(&mut Versions), _); 17] = [
        (|v| v.read_part = Some(last_height_left), ReadPart::NAME),
        (|v| v.check = Some(order_from_above), Check::NAME),
        (|v| v.cut = Some(point_moved), Cut::NAME),
        (|v| v.contour = Some(last_point_dropped), Contour::NAME),
        (|v| v.area = Some(area_turned_round), Area::NAME),
        (|v| v.start = Some(one_passed_at_first), Start::NAME),
        (|v| v.step = Some(step_leaves_the_rings), Step::NAME),
        (|v| v.layer = Some(rise_refused), Layer::NAME),
        (|v| v.all_layers = Some(marks_left), AllLayers::NAME),
        (
            |v| v.read_layer = Some(left_over_byte_taken),
            ReadLayer::NAME,
        ),
        (|v| v.preview = Some(moves_told_as_lines), Preview::NAME),
        (|v| v.preview_run = Some(last_kind_left), PreviewRun::NAME),
        (|v| v.clean = Some(last_end_left), Clean::NAME),
        (
            |v| v.all_layers_clean = Some(full_file_written),
            AllLayersClean::NAME,
        ),
        (
            |v| v.read_layer_clean = Some(unclean_taken),
            ReadLayerClean::NAME,
        ),
        (|v| v.ink = Some(one_more_charged), Ink::NAME),
        (|v| v.nesting = Some(last_parent_left), Nesting::NAME),
    ];
    faults.map(|(spoil, name)| {
        let mut versions = right;
        spoil(&mut versions);
        (versions, name)
    })
}

#[test]
fn faults_are_noticed() {
    for (versions, operation) in faulty() {
        let compared = compare_chains(&Rounds::fixed(1, 400), versions);
        assert_told(operation, compared, &format!(": {operation}: "));
    }
}
