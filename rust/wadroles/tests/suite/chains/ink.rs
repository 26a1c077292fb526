//! The part of a chain that is about ink.

use super::chain::Chain;
use crate::harness::Answer;
use crate::ink::random_thickness;
use crate::operations::{Ink, Job};
use files::Damage as FileDamage;

impl Chain<'_> {
    /// Charges both files of a mesh, which must be charged alike, and then damaged copies.
    pub(super) fn charge_files(
        &mut self,
        full: Option<&[u8]>,
        clean: Option<&[u8]>,
    ) -> Result<(), String> {
        let thickness = random_thickness(self.random);
        if let (Some(full), Some(clean)) = (full, clean) {
            let charge = self.charge(full, thickness)?;
            let of_clean = self.charge(clean, thickness)?;
            if charge != of_clean {
                return Err(format!("clean file: {of_clean:?}, not {charge:?}"));
            }
        }
        for file in [full, clean].into_iter().flatten() {
            let mut damaged = file.to_vec();
            FileDamage::any(self.random).apply(&mut damaged, self.random);
            let thickness = random_thickness(self.random);
            let _answer = self.charge(&damaged, thickness)?;
        }
        Ok(())
    }

    fn charge(&mut self, file: &[u8], thickness: u32) -> Result<Answer<u64>, String> {
        let job = Job::new(file, thickness);
        let (answer, _) = self.call::<Ink>(job, self.versions.ink)?;
        Ok(answer)
    }
}
