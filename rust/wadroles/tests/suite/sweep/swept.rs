use crate::harness::{compare_version, Answer, Case, Version};
use crate::operations::{Given, Layer, Ring, Start, Step, WorkTables};
use meshes::Mesh;

/// A sweep under way, whose calls the oracle makes too. What an unrefused call leaves is left here, and
/// so is the number of passed vertices.
#[derive(Clone)]
pub struct Swept {
    pub given: Given,
    pub work: WorkTables,
}

impl Swept {
    /// So many vertices passed, with tables as long as they need be and the right ring table.
    pub fn at(mesh: Mesh, passed: usize) -> Self {
        Swept::of(Case::exact(Given::new(mesh).with_passed(passed)))
    }

    pub fn of(case: Case<Layer>) -> Self {
        Swept {
            given: case.input,
            work: case.tables,
        }
    }

    pub fn ring(&self) -> &[u32] {
        self.work.ring.view()
    }

    pub fn shorten_ring(&mut self, length: usize) {
        self.work.ring = self.work.ring.shortened(length);
    }

    fn ring_alone(&self) -> Ring {
        Ring {
            ring: self.work.ring.clone(),
        }
    }

    /// A start by a version of it; or how it differs from the oracle's.
    pub fn start_by(&mut self, version: Version<Start>) -> Result<Answer<usize>, String> {
        let mut case = Case::<Start> {
            input: self.given.clone(),
            tables: self.ring_alone(),
        };
        let answer = compare_version(&mut case, version)?;
        self.work.ring = case.tables.ring;
        self.given.passed = answer.unwrap_or(self.given.passed);
        Ok(answer)
    }

    /// A step by a version of it; or how it differs from the oracle's.
    pub fn step_by(&mut self, version: Version<Step>) -> Result<Answer<Option<usize>>, String> {
        let mut case = Case::<Step> {
            input: self.given.clone(),
            tables: self.ring_alone(),
        };
        let answer = compare_version(&mut case, version)?;
        self.work.ring = case.tables.ring;
        self.given.passed = answer.ok().flatten().unwrap_or(self.given.passed);
        Ok(answer)
    }

    /// A rise by a version of Layer; or how it differs from the oracle's.
    pub fn layer_by(
        &mut self,
        version: Version<Layer>,
        h: i32,
    ) -> Result<Answer<(usize, usize, usize)>, String> {
        let mut case = Case::<Layer> {
            input: self.given.clone().at(h),
            tables: self.work.clone(),
        };
        let answer = compare_version(&mut case, version)?;
        self.work = case.tables;
        if let Ok((passed, _, _)) = answer {
            self.given.passed = passed;
        }
        Ok(answer)
    }

    /// The answer of a start on which product and oracle agree.
    #[track_caller]
    pub fn start(&mut self) -> Answer<usize> {
        let answer = self.start_by(None);
        answer.unwrap_or_else(|failure| panic!("{failure}"))
    }

    /// The answer of a step on which product and oracle agree.
    #[track_caller]
    pub fn step(&mut self) -> Answer<Option<usize>> {
        let answer = self.step_by(None);
        answer.unwrap_or_else(|failure| panic!("{failure}"))
    }

    /// The answer of a rise on which product and oracle agree.
    #[track_caller]
    pub fn layer(&mut self, h: i32) -> Answer<(usize, usize, usize)> {
        let answer = self.layer_by(None, h);
        answer.unwrap_or_else(|failure| panic!("{failure}"))
    }
}
