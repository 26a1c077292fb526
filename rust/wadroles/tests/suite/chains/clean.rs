//! The part of a chain that is about the clean profile.

use super::chain::{Chain, FlatLayer};
use crate::harness::{Case, Operation};
use crate::operations::{AllLayersClean, Clean, Given, GivenLayer, LayerFile, ReadLayerClean};
use crate::preview::spoil_layer;
use files::Damage as FileDamage;

impl Chain<'_> {
    /// Cleans a layer, now and then one with something wrong, and previews and nests what is left.
    pub(super) fn clean(&mut self, points: &[i32], ends: &[u32]) -> Result<(), String> {
        let mut layer = GivenLayer::new(points, ends);
        if self.random.one_in(8) {
            spoil_layer(&mut layer.points, &mut layer.ends, self.random);
        }
        let (answer, case) = self.call::<Clean>(layer, self.versions.clean)?;
        if let Ok((contours, points)) = answer {
            let points = &case.tables.points.view()[..2 * points];
            let ends = &case.tables.ends.view()[..contours];
            self.preview(points, ends)?;
            self.nest(points, ends)?;
        }
        Ok(())
    }

    /// Writes the clean file and reads some layers of it, if it is not refused. Then the clean reading
    /// gets the full file, if there is one, and damaged copies of both. Gives the clean file.
    pub(super) fn clean_file(
        &mut self,
        given: &Given,
        full: Option<&[u8]>,
    ) -> Result<Option<Vec<u8>>, String> {
        let version = self.versions.all_layers_clean;
        let (length, case) = self.call::<AllLayersClean>(given.clone(), version)?;
        let file = length
            .ok()
            .map(|length| &case.tables.output.view()[..length]);
        for i in [0, 1, self.random.below(9)] {
            if let Some(layer) = self.read_clean(file, i)? {
                layer.must_be(&self.clean_cut(given, layer.height)?)?;
                self.preview(&layer.points, &layer.ends)?;
            }
            self.read_clean(full, i)?;
        }
        for file in [file, full].into_iter().flatten() {
            let mut damaged = file.to_vec();
            FileDamage::any(self.random).apply(&mut damaged, self.random);
            self.read_clean(Some(&damaged), 0)?;
        }
        Ok(file.map(<[u8]>::to_vec))
    }

    /// A layer of a file, if there is one and it is not refused.
    fn read_clean(&mut self, file: Option<&[u8]>, i: usize) -> Result<Option<FlatLayer>, String> {
        let Some(file) = file else {
            return Ok(None);
        };
        let input = LayerFile::new(file, i);
        let version = self.versions.read_layer_clean;
        let (answer, case) = self.call::<ReadLayerClean>(input, version)?;
        Ok(answer.ok().map(|(_, height, contours, points)| FlatLayer {
            height,
            points: case.tables.points.view()[..2 * points].to_vec(),
            ends: case.tables.ends.view()[..contours].to_vec(),
        }))
    }

    /// What cleaning leaves of the layer that a cut gives.
    fn clean_cut(&mut self, given: &Given, height: i32) -> Result<FlatLayer, String> {
        let FlatLayer { points, ends, .. } = self.cut_at(given, height)?;
        let mut case = Case::<Clean>::exact(GivenLayer { points, ends });
        let clean = self.versions.clean.unwrap_or(Clean::product);
        let (contours, points) = case
            .run(clean)
            .map_err(|refusal| format!("clean at {height}: {refusal:?} after a cut"))?;
        Ok(FlatLayer {
            height,
            points: case.tables.points.view()[..2 * points].to_vec(),
            ends: case.tables.ends.view()[..contours].to_vec(),
        })
    }
}
