use crate::harness::{call_c, lent_tables, long, refused, Answer, Lent, Operation};
use meshes::Random;
use wadroles::raw::{wadroles_preview, wadroles_preview_run};
use wadroles::{GivenLayer, Origin, PathCall};

/// The operation "Preview".
pub struct Preview;

/// The operation "Preview of a run".
pub struct PreviewRun;

lent_tables! {
    /// Where Preview leaves the floats of a call.
    Xy { xy: Lent<f32> }
}

lent_tables! {
    /// The tables lent to Preview of a run.
    CallTables { kinds: Lent<u8>, xy: Lent<f32> }
}

/// What both read: a layer, an origin, and the number of a call.
#[derive(Clone, Debug, PartialEq, Eq)]
pub struct Drawing {
    pub points: Vec<i32>,
    pub ends: Vec<u32>,
    /// The origin's floats by their bits, since a float may differ from itself.
    pub origin: [u32; 2],
    pub number: usize,
}

impl Drawing {
    /// From call 0 on.
    pub fn new(points: &[i32], ends: &[u32], origin: [f32; 2]) -> Self {
        Drawing {
            points: points.to_vec(),
            ends: ends.to_vec(),
            origin: origin.map(f32::to_bits),
            number: 0,
        }
    }

    /// Of these contours, whose tables are the layer.
    pub fn of(contours: &[Vec<[i32; 2]>], origin: [f32; 2]) -> Self {
        let mut ends = Vec::new();
        let mut end = 0;
        for contour in contours {
            end += contour.len() as u32;
            ends.push(end);
        }
        Drawing::new(&contours.concat().concat(), &ends, origin)
    }

    /// From this call on.
    pub fn from(mut self, number: usize) -> Self {
        self.number = number;
        self
    }

    /// How many calls a layer of such tables has: one for each point and one for each contour.
    pub fn calls(&self) -> usize {
        self.points.len() / 2 + self.ends.len()
    }

    /// How many of them are left.
    pub fn left(&self) -> usize {
        self.calls().saturating_sub(self.number)
    }

    fn layer(&self) -> GivenLayer<'_> {
        GivenLayer {
            points: &self.points,
            ends: &self.ends,
        }
    }

    fn origin(&self) -> Origin {
        let [x, y] = self.origin.map(f32::from_bits);
        Origin { x, y }
    }
}

/// The number of a kind of call, and its floats.
fn told(call: Option<PathCall>) -> (u64, Option<[f32; 2]>) {
    match call {
        Some(PathCall::Move(x, y)) => (0, Some([x, y])),
        Some(PathCall::Line(x, y)) => (1, Some([x, y])),
        Some(PathCall::Close) => (2, None),
        None => (3, None),
    }
}

/// The same of the oracle's.
fn told_by_oracle(call: Option<oracle::PathCall>) -> (u64, Option<[f32; 2]>) {
    let at = |point: [u32; 2]| Some(point.map(f32::from_bits));
    match call {
        Some(oracle::PathCall::Move(point)) => (0, at(point)),
        Some(oracle::PathCall::Line(point)) => (1, at(point)),
        Some(oracle::PathCall::Close) => (2, None),
        None => (3, None),
    }
}

impl Xy {
    /// Leaves the floats of a call, and gives the number of its kind.
    fn leave(&mut self, (kind, floats): (u64, Option<[f32; 2]>)) -> u64 {
        if let Some(floats) = floats {
            self.xy.table()[..2].copy_from_slice(&floats);
        }
        kind
    }
}

impl Operation for Preview {
    const NAME: &'static str = "preview";
    const REFUSALS: &'static [u32] = &[17, 1, 2];
    type Input = Drawing;
    /// What the C function is lent. The wrapper gives floats as values; they are left here too.
    type Tables = Xy;
    /// 0 for a move, 1 for a line, 2 for a close, 3 past the last.
    type Values = u64;

    fn lengths(_input: &Drawing) -> Vec<usize> {
        vec![2]
    }

    /// Never shorter than the C function takes it for.
    fn random_lengths(_input: &Drawing, random: &mut Random) -> Vec<usize> {
        vec![long(2, random)]
    }

    fn product(input: &Drawing, tables: &mut Xy) -> Answer<u64> {
        let call = wadroles::preview(input.layer(), input.origin(), input.number);
        Ok(tables.leave(told(call.map_err(refused)?)))
    }

    fn call_c(input: &Drawing, tables: &mut Xy, out: &mut [u64; 4]) -> u32 {
        assert!(tables.xy.length() >= 2, "the C function writes two entries");
        let Origin { x, y } = input.origin();
        call_c!(wadroles_preview(
            read input.points,
            read input.ends,
            number x,
            number y,
            number input.number,
            known tables.xy,
        ), out)
    }

    fn oracle(input: &Drawing, tables: &mut Xy) -> Answer<u64> {
        let call = oracle::preview(&input.points, &input.ends, input.origin, input.number);
        Ok(tables.leave(told_by_oracle(call.map_err(|r| (r.number, r.place))?)))
    }

    fn words(_input: &Drawing, kind: u64) -> Vec<u64> {
        vec![kind]
    }
}

impl Operation for PreviewRun {
    const NAME: &'static str = "preview of a run";
    const REFUSALS: &'static [u32] = &[17, 1, 2];
    type Input = Drawing;
    type Tables = CallTables;
    /// How many calls were filled.
    type Values = usize;

    /// Those that hold the calls left.
    fn lengths(input: &Drawing) -> Vec<usize> {
        vec![input.left(), 2 * input.left()]
    }

    /// Any, and often those that hold all.
    fn random_lengths(input: &Drawing, random: &mut Random) -> Vec<usize> {
        let lengths = PreviewRun::lengths(input).into_iter();
        lengths
            .map(|needed| match random.below(4) {
                0 => random.below(needed + 2),
                _ => long(needed, random),
            })
            .collect()
    }

    fn product(input: &Drawing, tables: &mut CallTables) -> Answer<usize> {
        let mut lent = wadroles::CallTables {
            kinds: tables.kinds.table(),
            xy: tables.xy.table(),
        };
        wadroles::preview_run(input.layer(), input.origin(), input.number, &mut lent)
            .map_err(refused)
    }

    fn call_c(input: &Drawing, tables: &mut CallTables, out: &mut [u64; 4]) -> u32 {
        let Origin { x, y } = input.origin();
        call_c!(wadroles_preview_run(
            read input.points,
            read input.ends,
            number x,
            number y,
            number input.number,
            lend tables.kinds,
            lend tables.xy,
        ), out)
    }

    fn oracle(input: &Drawing, tables: &mut CallTables) -> Answer<usize> {
        let (kinds, xy) = (tables.kinds.table(), tables.xy.table());
        let Drawing { points, ends, .. } = input;
        oracle::preview_run(points, ends, input.origin, input.number, kinds, xy)
            .map_err(|r| (r.number, r.place))
    }

    fn words(_input: &Drawing, filled: usize) -> Vec<u64> {
        vec![filled as u64]
    }
}
