use crate::comparison::{Bench, Comparison, Kind};
use crate::owned::JUNK;
use crate::unproved;
use crate::versions::{Subject, Version};
use meshes::{Random, MAX_COORDINATE};
use std::hint::black_box;
use wadroles::{CallTables, GivenLayer, Origin, PathCall, MAX_POINTS};

/// The calls of a short run.
const SHORT_RUN: usize = 1_024;

/// The points of a small contour.
const SMALL: usize = 4;

const TIMES_OVER: usize = 20;

const ORIGIN: Origin = Origin {
    x: 100_000.0,
    y: -50_000.0,
};

/// Preview of a layer by runs, and of a single call.
pub fn benches() -> Vec<Box<dyn Bench>> {
    let sizes = [MAX_POINTS / 4, MAX_POINTS / 2, MAX_POINTS];
    let one_run = vec![
        Kind::new("long contour, one run", sizes, |points| {
            Screen::new(Layer::new(points, points), usize::MAX)
        }),
        Kind::new("small contours, one run", sizes, |points| {
            Screen::new(Layer::new(points, SMALL), usize::MAX)
        }),
    ];
    let short_runs = vec![
        Kind::new("long contour, short runs", sizes, |points| {
            Screen::new(Layer::new(points, points), SHORT_RUN)
        }),
        Kind::new("small contours, short runs", sizes, |points| {
            Screen::new(Layer::new(points, SMALL), SHORT_RUN)
        }),
    ];
    let one_call = vec![
        Kind::new("long contour, one call", sizes, |points| {
            Call::new(Layer::new(points, points))
        }),
        Kind::new("small contours, one call", sizes, |points| {
            Call::new(Layer::new(points, SMALL))
        }),
    ];
    let by_runs = format!("preview of all calls, {SHORT_RUN} a run");
    let one = format!("preview of a middle call, {TIMES_OVER} times");
    vec![
        Box::new(Comparison::new("preview of all calls", "points", one_run)),
        Box::new(Comparison::new(by_runs, "points", short_runs)),
        Box::new(Comparison::new(one, "points", one_call)),
    ]
}

/// The tables of a layer.
struct Layer {
    points: Vec<i32>,
    ends: Vec<u32>,
}

impl Layer {
    /// Random points all over the range, in contours of so many each.
    fn new(count: usize, contour: usize) -> Self {
        let mut random = Random::new(1);
        let range = -MAX_COORDINATE..=MAX_COORDINATE;
        let ends = (contour..=count).step_by(contour);
        Layer {
            points: (0..2 * count)
                .map(|_| random.within(range.clone()))
                .collect(),
            ends: ends.map(|end| end as u32).collect(),
        }
    }

    fn lend(&self) -> GivenLayer<'_> {
        GivenLayer {
            points: &self.points,
            ends: &self.ends,
        }
    }

    fn calls(&self) -> usize {
        self.points.len() / 2 + self.ends.len()
    }
}

/// A layer that is drawn by runs, each into the tables at its place.
struct Screen {
    layer: Layer,
    run: usize,
    kinds: Vec<u8>,
    xy: Vec<f32>,
}

impl Screen {
    fn new(layer: Layer, run: usize) -> Self {
        let calls = layer.calls();
        Screen {
            run: run.min(calls),
            kinds: vec![JUNK as u8; calls],
            xy: vec![JUNK as f32; 2 * calls],
            layer,
        }
    }
}

impl Subject for Screen {
    type Answer = usize;
    type Left = (Vec<u8>, Vec<f32>);

    fn size(&self) -> usize {
        self.layer.points.len() / 2
    }

    fn calls(&self) -> usize {
        1
    }

    fn refill(&mut self) {
        self.kinds.fill(JUNK as u8);
        self.xy.fill(JUNK as f32);
    }

    fn call(&mut self, version: Version, _call: usize) -> usize {
        let preview_run = black_box(match version {
            Version::Library => wadroles::preview_run,
            Version::Unproved => unproved::preview_run,
        });
        let kinds = self.kinds.chunks_mut(self.run);
        let xy = self.xy.chunks_mut(2 * self.run);
        let mut number = 0;
        for (kinds, xy) in kinds.zip(xy) {
            let mut tables = CallTables { kinds, xy };
            let layer = black_box(self.layer.lend());
            let filled = preview_run(layer, black_box(ORIGIN), number, &mut tables);
            number += filled.expect("the layer is right");
        }
        number
    }

    fn left(&self) -> Self::Left {
        (self.kinds.clone(), self.xy.clone())
    }
}

/// A layer of which one call is fetched.
struct Call {
    layer: Layer,
}

impl Call {
    fn new(layer: Layer) -> Self {
        Call { layer }
    }
}

impl Subject for Call {
    type Answer = Option<PathCall>;
    type Left = ();

    fn size(&self) -> usize {
        self.layer.points.len() / 2
    }

    fn calls(&self) -> usize {
        TIMES_OVER
    }

    fn refill(&mut self) {}

    fn call(&mut self, version: Version, _call: usize) -> Option<PathCall> {
        let preview = black_box(match version {
            Version::Library => wadroles::preview,
            Version::Unproved => unproved::preview,
        });
        let number = black_box(self.layer.calls() / 2);
        let layer = black_box(self.layer.lend());
        preview(layer, black_box(ORIGIN), number).expect("the layer is right")
    }

    fn left(&self) {}
}
