//! The part of a chain that is about contours within contours.

use super::chain::Chain;
use crate::operations::{GivenLayer, Nesting};
use crate::preview::spoil_layer;

impl Chain<'_> {
    /// Nests the contours of a layer, now and then of one with something wrong.
    pub(super) fn nest(&mut self, points: &[i32], ends: &[u32]) -> Result<(), String> {
        let mut layer = GivenLayer::new(points, ends);
        if self.random.one_in(8) {
            spoil_layer(&mut layer.points, &mut layer.ends, self.random);
        }
        let _answer = self.call::<Nesting>(layer, self.versions.nesting)?;
        Ok(())
    }
}
