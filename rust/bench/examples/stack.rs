//! Prints how many bytes of stack each operation of the library uses, by marks on the stack that it
//! overwrites. Those of the wrapper are counted too, and the arguments on the stack.
//!
//! Only the deepest mark that a call overwrote is found, on one mesh: it is a measurement.

use meshes::shapes::torus;
use meshes::{random_pairing, vertex_order, Mesh, Random};
use oracle::{encode_layers, encode_part, FileLayer, Part};
use std::hint::black_box;
use std::ptr::read_volatile;
use wadroles::{
    all_layers, all_layers_clean, check, clean, ink, layer, nesting, preview, preview_run,
    read_layer, read_layer_clean, read_part, start, CallTables, CheckTables, CutTables, FlatLayer,
    GivenLayer, NestTables, OrderedMesh, Origin, PairedMesh, Sweep, WorkTables,
};

const HEIGHT: i32 = 7;
const MARK: u8 = 0xA5;
const MARKED: usize = 1 << 17;

/// Marks the stack below the caller's frame, and gives the lowest place.
#[inline(never)]
fn mark() -> *const u8 {
    let mut marks = [MARK; MARKED];
    black_box(&mut marks).as_ptr()
}

/// The marked bytes from the deepest that a call overwrote.
#[inline(never)]
fn overwritten(lowest: *const u8) -> usize {
    // SAFETY: the marks lie within this thread's stack, above its guard page. Nothing stands there
    // any more, so each may have any value.
    let kept = |place: &usize| unsafe { read_volatile(lowest.add(*place)) } == MARK;
    MARKED - (0..MARKED).take_while(kept).count()
}

/// The frame of this function stands right above the marks, and right above the call's.
#[inline(never)]
fn print_depth(name: &str, call: &mut dyn FnMut()) {
    let lowest = mark();
    call();
    let depth = overwritten(lowest);
    println!("{name:16} {depth:>6}");
}

fn main() {
    print_depth("nothing", &mut || {});
    print_mesh_depths(&torus(12, 16, 700, 300));
    print_file_depths(&torus(12, 16, 700, 300));
    print_given_depths();
}

/// Tables as long as so many corners need them.
struct Work {
    names: Vec<u32>,
    points: Vec<i32>,
    ends: Vec<u32>,
    marks: Vec<u32>,
    ring: Vec<u32>,
}

impl Work {
    fn new(corners: usize) -> Self {
        Work {
            names: vec![0; corners],
            points: vec![0; 2 * corners],
            ends: vec![0; corners],
            marks: vec![0; corners],
            ring: vec![0; corners],
        }
    }

    fn lend(&mut self) -> WorkTables<'_> {
        WorkTables {
            cut: CutTables {
                names: &mut self.names,
                points: &mut self.points,
                ends: &mut self.ends,
                marks: &mut self.marks,
            },
            ring: &mut self.ring,
        }
    }
}

fn print_mesh_depths(owned: &Mesh) {
    let mesh = wadroles::Mesh {
        coords: &owned.coords,
        corners: &owned.corners,
    };
    let mut pairing = random_pairing(owned, &mut Random::new(1));
    let mut order = vertex_order(owned);
    let mut made = CheckTables {
        pairing: &mut pairing,
        order: &mut order,
    };
    print_depth("check", &mut || {
        check(mesh, &mut made).expect("it is closed");
    });
    let paired = PairedMesh {
        mesh,
        pairing: &pairing,
    };
    let ordered = OrderedMesh {
        paired,
        order: &order,
    };
    let mut work = Work::new(mesh.corners.len());
    print_cut_depths(ordered, work.lend());
    let heights: Vec<i32> = (-299..299).collect();
    let mut output = vec![0; 1 << 20];
    print_depth("all_layers", &mut || {
        all_layers(ordered, &heights, &mut work.lend(), &mut output).expect("it is closed");
    });
    print_depth("all_layers_clean", &mut || {
        all_layers_clean(ordered, &heights, &mut work.lend(), &mut output).expect("it is closed");
    });
}

fn print_cut_depths(ordered: OrderedMesh, work: WorkTables) {
    let WorkTables { mut cut, ring } = work;
    print_depth("cut", &mut || {
        wadroles::cut(ordered.paired, HEIGHT, &mut cut).expect("it is closed");
    });
    let passed = start(ordered.paired.mesh, ring).expect("the table is long enough");
    let mut sweep = Sweep {
        ordered,
        ring,
        passed,
    };
    print_depth("layer", &mut || {
        layer(&mut sweep, HEIGHT, &mut cut).expect("it is closed");
    });
}

fn print_file_depths(mesh: &Mesh) {
    let mut layer = FlatLayer {
        points: &mut [0; 6],
        ends: &mut [0; 1],
    };
    let triangle = FileLayer {
        height: HEIGHT,
        contours: vec![vec![[0, 0], [700, 0], [0, 700]]],
    };
    let file = encode_layers(&[triangle]);
    print_depth("read_layer", &mut || {
        read_layer(&file, 0, &mut layer).expect("the file is right");
    });
    print_depth("read_layer_clean", &mut || {
        read_layer_clean(&file, 0, &mut layer).expect("the file is clean");
    });
    print_depth("ink", &mut || {
        ink(&file, 40).expect("the file is right");
    });
    let mut part = Part {
        coords: mesh.coords.clone(),
        corners: mesh.corners.clone(),
        heights: vec![HEIGHT],
    };
    let file = encode_part(&part);
    let mut tables = wadroles::Part {
        coords: &mut part.coords,
        corners: &mut part.corners,
        heights: &mut part.heights,
    };
    print_depth("read_part", &mut || {
        read_part(&file, &mut tables).expect("the file is right");
    });
}

fn print_given_depths() {
    let layer = GivenLayer {
        points: &[0, 0, 700, 0, 0, 700, 5, 5, 9, 9],
        ends: &[3, 5],
    };
    let origin = Origin { x: 7.0, y: -7.0 };
    print_depth("preview", &mut || {
        preview(layer, origin, 2).expect("the layer is right");
    });
    let mut tables = CallTables {
        kinds: &mut [0; 7],
        xy: &mut [0.0; 14],
    };
    print_depth("preview_run", &mut || {
        preview_run(layer, origin, 0, &mut tables).expect("the layer is right");
    });
    let mut cleaned = FlatLayer {
        points: &mut [0; 10],
        ends: &mut [0; 2],
    };
    print_depth("clean", &mut || {
        clean(layer, &mut cleaned).expect("the layer is right");
    });
    print_nesting_depth();
}

/// Of three triangles, the last in both others, so that the area of a parent is found again.
fn print_nesting_depth() {
    let layer = GivenLayer {
        points: &[0, 0, 900, 0, 0, 900, 5, 5, 99, 5, 5, 99, 9, 9, 19, 9, 9, 19],
        ends: &[3, 6, 9],
    };
    let mut nested = NestTables {
        depths: &mut [0; 3],
        parents: &mut [0; 3],
    };
    print_depth("nesting", &mut || {
        nesting(layer, &mut nested).expect("the layer is right");
    });
    assert_eq!(nested.depths, [0, 1, 2]);
}
