//! Draws `docs/cut.svg`: a mesh, a plane, and the contours that Cut gives there.
//!
//! The mesh is a knob with six lobes and a bore. The library checks it, cuts it and measures the
//! contours; the lines drawn as contours join the points that Cut wrote, in their sequence.
//!
//! The argument is the file to write; without one it is `docs/cut.svg` of this repository.

use meshes::Mesh;
use std::error::Error;
use std::f64::consts::TAU;
use std::{env, fs};
use wadroles::{area, check, contour, cut, CheckTables, CutTables, PairedMesh, Refusal};

const PICTURE: &str = concat!(env!("CARGO_MANIFEST_DIR"), "/../../docs/cut.svg");

/// The height of the plane, in micrometres.
const HEIGHT: i32 = 1_000;

/// Half the side of the square that is drawn of the plane.
const PLANE: f64 = 21_500.0;

/// The shades of the triangles, from dark to light.
const SHADES: usize = 12;

/// The arrows on a contour.
const ARROWS: usize = 6;

type Point = [f64; 3];

fn main() -> Result<(), Box<dyn Error>> {
    let path = env::args().nth(1).unwrap_or_else(|| PICTURE.to_owned());
    let part = Part::new(knob())?;
    let contours = part.contours_at(HEIGHT)?;
    fs::write(path, picture(&part, &contours))?;
    Ok(())
}

/// A knob with six lobes that turn as they rise, round a bore: `AROUND` vertices round the axis by
/// `PROFILE` round the outline of its cross section, a rounded rectangle.
fn knob() -> Mesh {
    const AROUND: u32 = 72;
    const PROFILE: u32 = 20;
    let vertex = |i: u32, j: u32| (i % AROUND) * PROFILE + j % PROFILE;
    let grid = || (0..AROUND).flat_map(|i| (0..PROFILE).map(move |j| (i, j)));
    let points: Vec<[i32; 3]> = grid()
        .map(|(i, j)| {
            let (turn, round) = (portion(i, AROUND), portion(j, PROFILE));
            let [across, up] = [round.cos(), round.sin()].map(|x| x.signum() * x.abs().powf(0.55));
            let z = 8_000.0 * up;
            let lobes = 1.0 + 0.16 * (6.0 * turn - 0.7 * up).cos();
            let (bore, outer) = (7_500.0, 17_000.0 * lobes * (1.0 - 0.08 * up));
            let radius = bore + (outer - bore) * (1.0 + across) / 2.0;
            [radius * turn.cos(), radius * turn.sin(), z].map(|x| x.round() as i32)
        })
        .collect();
    let triangles: Vec<[u32; 3]> = grid()
        .flat_map(|(i, j)| {
            let [a, b] = [vertex(i, j), vertex(i + 1, j)];
            let [c, d] = [vertex(i + 1, j + 1), vertex(i, j + 1)];
            [[a, b, c], [a, c, d]]
        })
        .collect();
    Mesh::new(&points, &triangles)
}

fn portion(i: u32, n: u32) -> f64 {
    TAU * f64::from(i) / f64::from(n)
}

/// A mesh and the pairing that Check gave.
struct Part {
    mesh: Mesh,
    pairing: Vec<u32>,
}

/// The points that Cut gave, and what Area says of them.
struct Contour {
    points: Vec<[f64; 2]>,
    doubled_area: i64,
}

impl Part {
    fn new(mesh: Mesh) -> Result<Self, Refusal> {
        let mut pairing = vec![0; mesh.corners.len()];
        let mut order = vec![0; mesh.vertex_count()];
        let mut tables = CheckTables {
            pairing: &mut pairing,
            order: &mut order,
        };
        check(lend(&mesh), &mut tables)?;
        Ok(Part { mesh, pairing })
    }

    fn contours_at(&self, height: i32) -> Result<Vec<Contour>, Refusal> {
        let corners = self.mesh.corners.len();
        let (mut names, mut points) = (vec![0; corners], vec![0; 2 * corners]);
        let (mut ends, mut marks) = (vec![0; corners], vec![0; corners]);
        let mut tables = CutTables {
            names: &mut names,
            points: &mut points,
            ends: &mut ends,
            marks: &mut marks,
        };
        let paired = PairedMesh {
            mesh: lend(&self.mesh),
            pairing: &self.pairing,
        };
        let counts = cut(paired, height, &mut tables)?;
        let contours = 0..counts.contours;
        contours
            .map(|j| Contour::new(contour(&points, &ends[..counts.contours], j)))
            .collect()
    }

    fn point(&self, vertex: u32) -> Point {
        self.mesh.point(vertex).map(f64::from)
    }
}

fn lend(mesh: &Mesh) -> wadroles::Mesh<'_> {
    wadroles::Mesh {
        coords: &mesh.coords,
        corners: &mesh.corners,
    }
}

impl Contour {
    fn new(points: &[i32]) -> Result<Self, Refusal> {
        let pairs = points.chunks_exact(2);
        Ok(Contour {
            points: pairs.map(|p| [p[0].into(), p[1].into()]).collect(),
            doubled_area: area(points)?,
        })
    }

    /// Whether it goes round a hole.
    fn is_hole(&self) -> bool {
        self.doubled_area < 0
    }

    fn on_plane(&self) -> Vec<Point> {
        self.points.iter().map(|&point| on_plane(point)).collect()
    }

    /// The head of an arrow along it, at so much of its length.
    fn arrow(&self, portion: f64) -> [[f64; 2]; 3] {
        const SIZE: f64 = 900.0;
        let next = self.points.iter().cycle().skip(1);
        let sides = || self.points.iter().zip(next.clone());
        let length = |(a, b): (&[f64; 2], &[f64; 2])| (b[0] - a[0]).hypot(b[1] - a[1]);
        let mut left = portion * sides().map(length).sum::<f64>();
        let side = sides().find(|&side| {
            left -= length(side);
            left < 0.0
        });
        let (a, b) = side.expect("it is a portion");
        let [x, y] = [0, 1].map(|axis| (b[axis] - a[axis]) / length((a, b)));
        let at = |forward: f64, aside: f64| {
            let [forward, aside] = [left + SIZE * forward, SIZE * aside];
            [
                b[0] + forward * x - aside * y,
                b[1] + forward * y + aside * x,
            ]
        };
        [at(1.2, 0.0), at(-0.9, 0.95), at(-0.9, -0.95)]
    }
}

/// A projection along parallel lines onto the picture, in tenths of its units.
struct View {
    right: Point,
    up: Point,
    /// Towards the viewer.
    near: Point,
    scale: f64,
    centre: [f64; 2],
}

impl View {
    /// From an angle above the horizon, with the part turned round its axis. The scale is that of
    /// a millimetre.
    fn new(turn: f64, elevation: f64, scale: f64, centre: [f64; 2]) -> Self {
        let [[c, s], [ce, se]] = [turn, elevation].map(|a| [a.cos(), a.sin()]);
        View {
            right: [c, -s, 0.0],
            up: [s * se, c * se, ce],
            near: [-s * ce, -c * ce, se],
            scale: scale / 1000.0,
            centre,
        }
    }

    fn place(&self, point: Point) -> [i32; 2] {
        let [right, up] = [self.right, self.up].map(|axis| self.scale * dot(axis, point));
        [self.centre[0] + right, self.centre[1] - up].map(|x| (10.0 * x).round() as i32)
    }

    /// An open line for the `d` of a path: its first place, and the way to each of the others.
    fn line(&self, points: &[Point]) -> String {
        let mut text = String::new();
        let mut last: Option<[i32; 2]> = None;
        for &point in points {
            let [x, y] = self.place(point);
            text += &match last {
                None => format!("M{x} {y}"),
                Some([x0, y0]) => format!("l{} {}", x - x0, y - y0),
            };
            last = Some([x, y]);
        }
        text
    }

    /// A closed line.
    fn outline(&self, points: &[Point]) -> String {
        self.line(points) + "z"
    }
}

fn dot(a: Point, b: Point) -> f64 {
    (0..3).map(|axis| a[axis] * b[axis]).sum()
}

/// The outward normal of a triangle, of length 1.
fn normal([a, b, c]: [Point; 3]) -> Point {
    let [u, v]: [Point; 2] = [b, c].map(|end| std::array::from_fn(|axis| end[axis] - a[axis]));
    let across = |i: usize, j: usize| u[i] * v[j] - u[j] * v[i];
    let n = [across(1, 2), across(2, 0), across(0, 1)];
    n.map(|x| x / dot(n, n).sqrt())
}

/// A side of the plane.
#[derive(Clone, Copy)]
enum Side {
    Below,
    Above,
}

impl Side {
    fn has(self, point: Point) -> bool {
        match self {
            Side::Below => point[2] <= f64::from(HEIGHT),
            Side::Above => point[2] >= f64::from(HEIGHT),
        }
    }

    /// What a polygon has on this side. This is for drawing the mesh; no contour comes from here.
    fn clip(self, polygon: &[Point]) -> Vec<Point> {
        let mut kept = Vec::new();
        let next = polygon.iter().cycle().skip(1);
        for (&a, &b) in polygon.iter().zip(next) {
            if self.has(a) {
                kept.push(a);
            }
            if self.has(a) != self.has(b) {
                let portion = (f64::from(HEIGHT) - a[2]) / (b[2] - a[2]);
                let between = |axis: usize| a[axis] + portion * (b[axis] - a[axis]);
                kept.push(std::array::from_fn(between));
            }
        }
        kept
    }
}

const STYLE: &str = "
text { font: 15px system-ui, 'Segoe UI', Helvetica, Arial, sans-serif; fill: #30363d }
.blue { fill: #0b5cad }
.red { fill: #b93a06 }
.brown { fill: #8a6500 }
.below path { stroke: #4c5a67; stroke-width: 3.5; stroke-linejoin: round }
.plane { fill: #f5c518; fill-opacity: .15; stroke: #b98900; stroke-width: 11 }
.solid { fill: #bcd9f5; fill-rule: evenodd }
.glass { fill: #fff; fill-opacity: .25 }
.edges { fill: none; stroke: #4c5a67; stroke-opacity: .25; stroke-width: 5 }
.rim { fill: none; stroke: #4c5a67; stroke-opacity: .6; stroke-width: 8; stroke-linecap: round }
.outer, .hole { fill: none; stroke-width: 26; stroke-linejoin: round }
.outer { stroke: #0b5cad }
.hole { stroke: #c8420b }
.outer-tip { fill: #0b5cad }
.hole-tip { fill: #c8420b }
";

fn picture(part: &Part, contours: &[Contour]) -> String {
    let aslant = View::new(0.35, 0.62, 9.6, [282.0, 196.0]);
    let from_above = View::new(0.0, TAU / 4.0, 8.4, [748.0, 182.0]);
    let mut svg = format!(
        "<svg xmlns='http://www.w3.org/2000/svg' viewBox='0 0 960 420' width='960' height='420'>\n\
         <title>A mesh, a plane, and the contours that Cut gives there</title>\n\
         <style>{STYLE}{}</style>\n\
         <rect width='960' height='420' rx='10' fill='#fcfcfa'/>\n\
         <g transform='scale(.1)'>\n",
        shades()
    );
    svg += &mesh_below(part, &aslant);
    svg += &plane(&aslant);
    svg += &solid(contours, &aslant);
    svg += &mesh_above(part, &aslant);
    svg += &lines(contours, &aslant);
    svg += &solid(contours, &from_above);
    svg += &lines(contours, &from_above);
    svg += "</g>\n";
    svg += &text([282, 402], "", "a closed mesh and a plane at height h");
    svg += &text([520, 290], "brown", "h");
    svg += &text([748, 187], "red", "hole");
    svg += &text([748, 84], "blue", "solid");
    svg += &text(
        [748, 362],
        "blue",
        "outer contour: counterclockwise, area above 0",
    );
    svg += &text([748, 382], "red", "hole: clockwise, area below 0");
    svg += &text([748, 402], "", "the solid lies left of every arrow");
    svg + "</svg>\n"
}

/// A line of text round a place.
fn text([x, y]: [i32; 2], class: &str, line: &str) -> String {
    format!("<text x='{x}' y='{y}' text-anchor='middle' class='{class}'>{line}</text>\n")
}

/// The colours of the triangles.
fn shades() -> String {
    let colour = |shade: usize| {
        let light = shade as f64 / (SHADES - 1) as f64;
        let [r, g, b] = [[104.0, 240.0], [120.0, 243.0], [138.0, 247.0]]
            .map(|[dark, bright]| (dark + (bright - dark) * light).round());
        format!(".s{shade} {{ fill: rgb({r},{g},{b}) }}\n")
    };
    (0..SHADES).map(colour).collect()
}

/// The triangles below the plane that face the viewer, the farthest first.
fn mesh_below(part: &Part, view: &View) -> String {
    let light = [-0.45, -0.35, 0.82];
    let mut faces: Vec<(f64, String)> = Vec::new();
    for triangle in part.mesh.triangles() {
        let triangle = triangle.map(|v| part.point(v));
        let normal = normal(triangle);
        let polygon = Side::Below.clip(&triangle);
        if dot(normal, view.near) <= 0.0 || polygon.len() < 3 {
            continue;
        }
        let nearness: f64 = polygon.iter().map(|&point| dot(view.near, point)).sum();
        let brightness = (0.28 + 0.68 * dot(normal, light)).clamp(0.0, 1.0);
        let shade = (brightness * (SHADES - 1) as f64).round();
        let path = format!("<path class='s{shade}' d='{}'/>\n", view.outline(&polygon));
        faces.push((nearness / polygon.len() as f64, path));
    }
    faces.sort_by(|(a, _), (b, _)| a.total_cmp(b));
    let paths: String = faces.into_iter().map(|(_, path)| path).collect();
    format!("<g class='below'>\n{paths}</g>\n")
}

fn plane(view: &View) -> String {
    let corners = [
        [-PLANE, -PLANE],
        [PLANE, -PLANE],
        [PLANE, PLANE],
        [-PLANE, PLANE],
    ];
    path("plane", &view.outline(&corners.map(on_plane)))
}

fn on_plane([x, y]: [f64; 2]) -> Point {
    [x, y, f64::from(HEIGHT)]
}

fn path(class: &str, d: &str) -> String {
    format!("<path class='{class}' d='{d}'/>\n")
}

/// What lies between the contours.
fn solid(contours: &[Contour], view: &View) -> String {
    let outlines: String = contours
        .iter()
        .map(|c| view.outline(&c.on_plane()))
        .collect();
    path("solid", &outlines)
}

/// The contours, and arrows along them.
fn lines(contours: &[Contour], view: &View) -> String {
    let draw = |contour: &Contour| {
        let class = if contour.is_hole() { "hole" } else { "outer" };
        let tips: String = (0..ARROWS)
            .map(|i| contour.arrow((i as f64 + 0.2) / ARROWS as f64))
            .map(|tip| view.outline(&tip.map(on_plane)))
            .collect();
        path(class, &view.outline(&contour.on_plane())) + &path(&format!("{class}-tip"), &tips)
    };
    contours.iter().map(draw).collect()
}

/// What lies above the plane, as if of glass: the edges towards the viewer, and its rim.
fn mesh_above(part: &Part, view: &View) -> String {
    let polygons: Vec<[Point; 3]> = part
        .mesh
        .triangles()
        .map(|t| t.map(|v| part.point(v)))
        .collect();
    let faces: Vec<bool> = polygons
        .iter()
        .map(|&t| dot(normal(t), view.near) > 0.0)
        .collect();
    let mut glass = String::new();
    for (polygon, _) in polygons.iter().zip(&faces).filter(|(_, &faces)| faces) {
        let polygon = Side::Above.clip(polygon);
        if polygon.len() > 2 {
            glass += &view.outline(&polygon);
        }
    }
    let (mut edges, mut rim) = (String::new(), String::new());
    for (corner, (from, to)) in part.mesh.edges().enumerate() {
        let pair = part.pairing[corner] as usize;
        let line = Side::Above.clip(&[part.point(from), part.point(to)]);
        if line.len() > 1 {
            match [corner, pair].map(|c| faces[c / 3]) {
                [true, true] if corner < pair => edges += &view.line(&line[..2]),
                [true, false] => rim += &view.line(&line[..2]),
                _ => (),
            }
        }
    }
    path("glass", &glass) + &path("edges", &edges) + &path("rim", &rim)
}
