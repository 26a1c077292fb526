use super::inputs::{random_calls, random_part};
use crate::harness::{
    compare_version, long, Answer, Case, Lent, Operation, Rounds, Tallies, Version,
};
use crate::operations::{
    AllLayers, Area, Check, Contour, Cut, Drawing, Ends, Given, LayerFile, Preview, PreviewRun,
    ReadLayer, ReadPart, Versions, WorkTables,
};
use crate::preview::{random_number, random_origin, spoil_layer};
use crate::sweep::{random_cut_tables, spoil, Call, Swept};
use files::Damage as FileDamage;
use meshes::{
    random_height, random_pairing, vertex_order, Damage, Mesh, OrderDamage, PairingDamage, Random,
};
use oracle::{encode_part, Part};

/// Compares versions of all operations with the oracle on a random chain per round, until they
/// differ.
pub fn compare_chains(rounds: &Rounds, versions: Versions) -> Result<Tallies, String> {
    let mut tallies = Tallies::default();
    rounds.each(|random| {
        let mut chain = Chain {
            versions,
            random,
            tallies: &mut tallies,
        };
        chain.run()
    })?;
    Ok(tallies)
}

pub(super) struct Chain<'a> {
    pub(super) versions: Versions,
    pub(super) random: &'a mut Random,
    pub(super) tallies: &'a mut Tallies,
}

impl Chain<'_> {
    fn run(&mut self) -> Result<(), String> {
        let part = self.read_part()?;
        let given = self.check(part)?;
        for _ in 0..3 {
            let height = random_height(&given.mesh, self.random);
            self.cut(given.clone().at(height))?;
        }
        self.sweep(&given)?;
        let file = self.all_layers(&given)?;
        if let Some(file) = &file {
            self.read_layers(&given, file)?;
        }
        let clean = self.clean_file(&given, file.as_deref())?;
        self.charge_files(file.as_deref(), clean.as_deref())
    }

    /// Makes a call with tables that are mostly long enough, and notes its answer. What it leaves is
    /// in the case.
    pub(super) fn call<O: Operation>(
        &mut self,
        input: O::Input,
        version: Version<O>,
    ) -> Result<(Answer<O::Values>, Case<O>), String> {
        let mut case = Case::random(input, self.random);
        let answer = compare_version(&mut case, version)?;
        self.tallies.add(O::NAME, &answer);
        Ok((answer, case))
    }

    /// Reads the file of a random part, now and then a damaged one. Where it is refused, the chain
    /// goes on with the part that was written.
    fn read_part(&mut self) -> Result<Part, String> {
        let part = random_part(self.random);
        let mut file = encode_part(&part);
        if self.random.one_in(4) {
            FileDamage::any(self.random).apply(&mut file, self.random);
        }
        let (answer, case) = self.call::<ReadPart>(file, self.versions.read_part)?;
        Ok(match answer {
            Ok((vertices, triangles, heights)) => Part {
                coords: case.tables.coords.view()[..3 * vertices].to_vec(),
                corners: case.tables.corners.view()[..3 * triangles].to_vec(),
                heights: case.tables.heights.view()[..heights].to_vec(),
            },
            Err(_) => part,
        })
    }

    /// Checks the mesh of the part, now and then a damaged one. Where it is refused, the chain goes
    /// on with a pairing that is right as far as the mesh has one, and the right order. Both are
    /// damaged now and then.
    fn check(&mut self, part: Part) -> Result<Given, String> {
        let (coords, corners) = (part.coords, part.corners);
        let mut mesh = Mesh { coords, corners };
        if self.random.one_in(4) {
            Damage::any(self.random).apply(&mut mesh, self.random);
        }
        let (answer, case) = self.call::<Check>(Given::bare(mesh), self.versions.check)?;
        let (mut given, made) = (case.input.over(&part.heights), case.tables);
        (given.pairing, given.order) = match answer {
            Ok(()) => (made.pairing.view().to_vec(), made.order.view().to_vec()),
            Err(_) => (
                random_pairing(&given.mesh, self.random),
                vertex_order(&given.mesh),
            ),
        };
        if self.random.one_in(8) {
            PairingDamage::any(self.random).apply(&given.mesh, &mut given.pairing, self.random);
        }
        if self.random.one_in(8) {
            OrderDamage::any(self.random).apply(&given.mesh, &mut given.order, self.random);
        }
        Ok(given)
    }

    /// Cuts at a height, takes the contours out of the layer, measures them, and previews, nests and
    /// cleans the layer.
    fn cut(&mut self, given: Given) -> Result<(), String> {
        let (answer, case) = self.call::<Cut>(given, self.versions.cut)?;
        if let Ok((contours, points)) = answer {
            let points = &case.tables.points.view()[..2 * points];
            let ends = &case.tables.ends.view()[..contours];
            for j in 0..=contours {
                let input = Ends::new(points, ends, j);
                let (part, _) = self.call::<Contour>(input, self.versions.contour)?;
                let (first, length) = part.expect("contour has no refusals");
                self.area(&points[first..first + length])?;
            }
            self.preview(points, ends)?;
            self.nest(points, ends)?;
            self.clean(points, ends)?;
        }
        Ok(())
    }

    /// Previews a layer by a call and by a run, now and then one with something wrong.
    pub(super) fn preview(&mut self, points: &[i32], ends: &[u32]) -> Result<(), String> {
        let mut drawing = Drawing::new(points, ends, [0.0; 2]);
        if self.random.one_in(8) {
            spoil_layer(&mut drawing.points, &mut drawing.ends, self.random);
        }
        drawing.origin = random_origin(self.random);
        drawing.number = random_number(drawing.calls(), self.random);
        let _answer = self.call::<Preview>(drawing.clone(), self.versions.preview)?;
        let _answer = self.call::<PreviewRun>(drawing, self.versions.preview_run)?;
        Ok(())
    }

    /// Measures a contour, and now and then a run of points that is none.
    fn area(&mut self, contour: &[i32]) -> Result<(), String> {
        let _answer = self.call::<Area>(contour.to_vec(), self.versions.area)?;
        if self.random.one_in(8) {
            let mut points = contour.to_vec();
            if points.is_empty() || self.random.one_in(2) {
                points.push(0);
            } else {
                let place = self.random.below(points.len());
                points[place] = self.random.word() as i32;
            }
            let _answer = self.call::<Area>(points, self.versions.area)?;
        }
        Ok(())
    }

    /// Starts a sweep, and goes on by steps and rises. Some of the calls get something wrong, on a
    /// copy.
    fn sweep(&mut self, given: &Given) -> Result<(), String> {
        let mut sweep = self.fresh_sweep(given);
        sweep.call(Call::Start, &self.versions, self.tallies)?;
        for call in random_calls(&given.mesh, self.random) {
            sweep.work.cut = random_cut_tables(given.corners(), self.random);
            if self.random.one_in(4) {
                let mut copy = sweep.clone();
                spoil(&mut copy, self.random);
                copy.call(call, &self.versions, self.tallies)?;
            } else {
                sweep.call(call, &self.versions, self.tallies)?;
            }
        }
        Ok(())
    }

    /// A sweep that has not started, with a ring table that is too short at times.
    fn fresh_sweep(&mut self, given: &Given) -> Swept {
        let corners = given.corners();
        let length = match self.random.below(16) {
            0 => self.random.below(corners + 1),
            _ => long(corners, self.random),
        };
        Swept {
            given: given.clone(),
            work: WorkTables {
                cut: random_cut_tables(corners, self.random),
                ring: Lent::new(length, self.random),
            },
        }
    }

    /// Writes the layer file, if it is not refused.
    fn all_layers(&mut self, given: &Given) -> Result<Option<Vec<u8>>, String> {
        let (length, case) = self.call::<AllLayers>(given.clone(), self.versions.all_layers)?;
        let file = |length| case.tables.output.view()[..length].to_vec();
        Ok(length.ok().map(file))
    }

    /// Reads some layers of the file, of which there may be none of that number, and then layers of
    /// damaged copies.
    fn read_layers(&mut self, given: &Given, file: &[u8]) -> Result<(), String> {
        for i in [0, 1, self.random.below(9)] {
            if let Some(layer) = self.read_layer(file, i)? {
                self.compare_with_cut(given, &layer)?;
                self.preview(&layer.points, &layer.ends)?;
                self.nest(&layer.points, &layer.ends)?;
            }
        }
        for i in 0..2 {
            let mut damaged = file.to_vec();
            FileDamage::any(self.random).apply(&mut damaged, self.random);
            self.read_layer(&damaged, i)?;
        }
        Ok(())
    }

    /// A layer of a file, if it is not refused.
    fn read_layer(&mut self, file: &[u8], i: usize) -> Result<Option<FlatLayer>, String> {
        let input = LayerFile::new(file, i);
        let (answer, case) = self.call::<ReadLayer>(input, self.versions.read_layer)?;
        Ok(answer.ok().map(|(_, height, contours, points)| FlatLayer {
            height,
            points: case.tables.points.view()[..2 * points].to_vec(),
            ends: case.tables.ends.view()[..contours].to_vec(),
        }))
    }

    /// A layer that was read must be the one that a cut at its height gives.
    fn compare_with_cut(&mut self, given: &Given, layer: &FlatLayer) -> Result<(), String> {
        layer.must_be(&self.cut_at(given, layer.height)?)
    }

    /// The layer that a cut gives after All layers.
    pub(super) fn cut_at(&mut self, given: &Given, height: i32) -> Result<FlatLayer, String> {
        let mut case = Case::<Cut>::exact(given.clone().at(height));
        let cut = self.versions.cut.unwrap_or(Cut::product);
        let (contours, points) = case
            .run(cut)
            .map_err(|refusal| format!("cut at {height}: {refusal:?} after all layers"))?;
        Ok(FlatLayer {
            height,
            points: case.tables.points.view()[..2 * points].to_vec(),
            ends: case.tables.ends.view()[..contours].to_vec(),
        })
    }
}

/// A layer that was read from a file.
#[derive(Debug, PartialEq, Eq)]
pub(super) struct FlatLayer {
    pub(super) height: i32,
    pub(super) points: Vec<i32>,
    pub(super) ends: Vec<u32>,
}

impl FlatLayer {
    pub(super) fn must_be(&self, expected: &FlatLayer) -> Result<(), String> {
        match self == expected {
            true => Ok(()),
            false => Err(format!("read back: {self:?}, not {expected:?}")),
        }
    }
}
