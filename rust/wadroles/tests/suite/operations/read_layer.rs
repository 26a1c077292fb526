use crate::harness::{call_c, lent_tables, refused, Answer, Lent, Operation};
use oracle::{encode_layers, FileLayer};
use wadroles::raw::{wadroles_read_layer, wadroles_read_layer_clean};

/// The operation "Read layer i", in the full profile or the clean one.
pub struct ReadLayerIn<const CLEAN: bool>;

/// The operation "Read layer i".
pub type ReadLayer = ReadLayerIn<false>;

/// The operation "Read layer clean".
pub type ReadLayerClean = ReadLayerIn<true>;

lent_tables! {
    /// The tables lent to Read layer and to Clean.
    FlatLayer { points: Lent<i32>, ends: Lent<u32> }
}

impl FlatLayer {
    pub fn lend(&mut self) -> wadroles::FlatLayer<'_> {
        wadroles::FlatLayer {
            points: self.points.table(),
            ends: self.ends.table(),
        }
    }
}

/// What both read: a file, and the number of the layer.
#[derive(Clone, Debug, PartialEq, Eq)]
pub struct LayerFile {
    pub file: Vec<u8>,
    pub i: usize,
}

impl LayerFile {
    pub fn new(file: &[u8], i: usize) -> Self {
        let file = file.to_vec();
        LayerFile { file, i }
    }

    /// The file of these layers.
    pub fn of(layers: &[FileLayer], i: usize) -> Self {
        LayerFile::new(&encode_layers(layers), i)
    }
}

impl<const CLEAN: bool> Operation for ReadLayerIn<CLEAN> {
    const NAME: &'static str = if CLEAN {
        "read layer clean"
    } else {
        "read layer"
    };
    const REFUSALS: &'static [u32] = if CLEAN {
        &[13, 18, 15, 9]
    } else {
        &[13, 15, 9]
    };
    type Input = LayerFile;
    type Tables = FlatLayer;
    /// The number of layers, the height, and the counts of contours and points.
    type Values = (usize, i32, usize, usize);

    /// Those that the layer needs; where none is read, those of a small one.
    fn lengths(input: &LayerFile) -> Vec<usize> {
        let layers = oracle::decode_layers(&input.file).unwrap_or_default();
        match layers.get(input.i) {
            Some(layer) => {
                let points: usize = layer.contours.iter().map(Vec::len).sum();
                vec![2 * points, layer.contours.len()]
            }
            None => vec![6, 2],
        }
    }

    fn product(input: &LayerFile, tables: &mut FlatLayer) -> Answer<Self::Values> {
        let read_layer = match CLEAN {
            false => wadroles::read_layer,
            true => wadroles::read_layer_clean,
        };
        let reading = read_layer(&input.file, input.i, &mut tables.lend()).map_err(refused)?;
        let wadroles::Counts { contours, points } = reading.counts;
        Ok((reading.layers, reading.height, contours, points))
    }

    fn call_c(input: &LayerFile, tables: &mut FlatLayer, out: &mut [u64; 4]) -> u32 {
        let read_layer = match CLEAN {
            false => wadroles_read_layer,
            true => wadroles_read_layer_clean,
        };
        call_c!(read_layer(
            read input.file,
            number input.i,
            lend tables.points,
            lend tables.ends,
        ), out)
    }

    fn oracle(input: &LayerFile, tables: &mut FlatLayer) -> Answer<Self::Values> {
        let (points, ends) = (tables.points.table(), tables.ends.table());
        let read_layer = match CLEAN {
            false => oracle::read_layer,
            true => oracle::read_layer_clean,
        };
        read_layer(&input.file, input.i, points, ends)
            .map(|read| (read.layers, read.height, read.contours, read.points))
            .map_err(|r| (r.number, r.place))
    }

    fn words(_input: &LayerFile, (layers, height, contours, points): Self::Values) -> Vec<u64> {
        let height = i64::from(height) as u64;
        vec![layers as u64, height, contours as u64, points as u64]
    }
}
