//! The tests that several operations make of their tables.

use wadroles::{
    CutTables, GivenLayer, Mesh, OrderedMesh, PairedMesh, Refusal, MAX_COORDINATE, MAX_POINTS,
    MAX_TRIANGLES, MAX_VERTICES,
};

pub fn refuse<T>(number: u32, place: usize) -> Result<T, Refusal> {
    Err(Refusal {
        number,
        place: place as u64,
    })
}

/// Refuses the first element that is wrong, by its position.
fn refuse_first<T>(number: u32, table: &[T], wrong: impl Fn(&T) -> bool) -> Result<(), Refusal> {
    match table.iter().position(wrong) {
        Some(position) => refuse(number, position),
        None => Ok(()),
    }
}

pub fn test_sizes(mesh: Mesh<'_>) -> Result<(), Refusal> {
    let Mesh { coords, corners } = mesh;
    let whole = coords.len().is_multiple_of(3) && corners.len().is_multiple_of(3);
    let small = coords.len() <= 3 * MAX_VERTICES && corners.len() <= 3 * MAX_TRIANGLES;
    if whole && small {
        Ok(())
    } else {
        refuse(Refusal::SIZE, 0)
    }
}

/// Refusal 9 of the tables of a layer.
pub fn test_room(tables: &CutTables<'_>, corners: usize) -> Result<(), Refusal> {
    let short = [&tables.names, &tables.ends, &tables.marks].map(|table| table.len() < corners);
    if short.contains(&true) || tables.points.len() < 2 * corners {
        return refuse(Refusal::ROOM, 0);
    }
    Ok(())
}

/// The first entries of the tables of a layer, as many as so many corners need.
pub fn front<'a>(tables: &'a mut CutTables<'_>, corners: usize) -> CutTables<'a> {
    CutTables {
        names: &mut tables.names[..corners],
        points: &mut tables.points[..2 * corners],
        ends: &mut tables.ends[..corners],
        marks: &mut tables.marks[..corners],
    }
}

/// A first pass without an early end, which the compiler does several numbers at a time, says whether
/// there is a place to look for.
pub fn test_range(numbers: &[i32]) -> Result<(), Refusal> {
    let is_far = |x: &i32| x.unsigned_abs() > MAX_COORDINATE.unsigned_abs();
    if numbers.iter().fold(false, |far, x| far | is_far(x)) {
        return refuse_first(Refusal::RANGE, numbers, is_far);
    }
    Ok(())
}

/// Refusals 1 and 2 of a layer that is handed in.
pub fn test_layer(layer: GivenLayer<'_>) -> Result<(), Refusal> {
    let GivenLayer { points, ends } = layer;
    if !points.len().is_multiple_of(2) || points.len() / 2 > MAX_POINTS {
        return refuse(Refusal::SIZE, 0);
    }
    let mut before = 0;
    for &end in ends {
        let end = end as usize;
        if end < before + 2 {
            return refuse(Refusal::SIZE, 0);
        }
        before = end;
    }
    if before != points.len() / 2 {
        return refuse(Refusal::SIZE, 0);
    }
    test_range(points)
}

pub fn test_values(mesh: Mesh<'_>) -> Result<(), Refusal> {
    let Mesh { coords, corners } = mesh;
    test_range(coords)?;
    let vertices = mesh.vertices();
    refuse_first(Refusal::VERTEX, corners, |&v| v as usize >= vertices)?;
    let twice = |t: &[u32]| t[0] == t[1] || t[1] == t[2] || t[2] == t[0];
    match corners.chunks_exact(3).position(twice) {
        Some(triangle) => refuse(Refusal::TRIANGLE, 3 * triangle),
        None => Ok(()),
    }
}

pub fn test_pairing(paired: PairedMesh<'_>) -> Result<(), Refusal> {
    let (corners, pairing) = (paired.mesh.corners, paired.pairing);
    match (0..corners.len()).find(|&corner| !is_paired(corners, pairing, corner)) {
        Some(corner) => refuse(Refusal::PAIRING, corner),
        None => Ok(()),
    }
}

fn is_paired(corners: &[u32], pairing: &[u32], corner: usize) -> bool {
    let Some(&pair) = pairing.get(corner) else {
        return false;
    };
    let pair = pair as usize;
    pair < corners.len()
        && corners[pair] == corners[next(corner)]
        && corners[next(pair)] == corners[corner]
        && pairing.get(pair) == Some(&(corner as u32))
}

pub fn test_order(ordered: OrderedMesh<'_>) -> Result<(), Refusal> {
    let (mesh, order) = (ordered.paired.mesh, ordered.order);
    let (coords, vertices) = (mesh.coords, mesh.vertices());
    let key = |vertex: u32| (coords[3 * vertex as usize + 2], vertex);
    let order = &order[..vertices.min(order.len())];
    let rises = |pair: &[u32]| key(pair[0]) < key(pair[1]);
    let are_vertices = order.iter().all(|&vertex| (vertex as usize) < vertices);
    // So many vertices in rising sequence are all of them.
    if order.len() == vertices && are_vertices && order.windows(2).all(rises) {
        return Ok(());
    }
    let mut sorted: Vec<u32> = (0..vertices as u32).collect();
    sorted.sort_unstable_by_key(|&vertex| key(vertex));
    match (0..vertices).find(|&position| order.get(position) != Some(&sorted[position])) {
        Some(position) => refuse(Refusal::ORDER, position),
        None => Ok(()),
    }
}

/// The next corner of the same triangle.
pub fn next(corner: usize) -> usize {
    if corner % 3 == 2 {
        corner - 2
    } else {
        corner + 1
    }
}
