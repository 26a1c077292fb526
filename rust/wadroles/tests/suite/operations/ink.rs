use crate::harness::{call_c, refused, Answer, Operation};
use oracle::{encode_layers, FileLayer};
use wadroles::raw::wadroles_ink;

/// The operation "Ink".
pub struct Ink;

/// What Ink reads: a layer file, and the thickness of its layers.
#[derive(Clone, Debug, PartialEq, Eq)]
pub struct Job {
    pub file: Vec<u8>,
    pub thickness: u32,
}

impl Job {
    pub fn new(file: &[u8], thickness: u32) -> Self {
        let file = file.to_vec();
        Job { file, thickness }
    }

    /// The file of these layers.
    pub fn of(layers: &[FileLayer], thickness: u32) -> Self {
        let file = encode_layers(layers);
        Job { file, thickness }
    }
}

impl Operation for Ink {
    const NAME: &'static str = "ink";
    const REFUSALS: &'static [u32] = &[13, 19];
    type Input = Job;
    type Tables = ();
    /// The charge.
    type Values = u64;

    fn lengths(_job: &Job) -> Vec<usize> {
        Vec::new()
    }

    fn product(job: &Job, (): &mut ()) -> Answer<u64> {
        wadroles::ink(&job.file, job.thickness).map_err(refused)
    }

    fn call_c(job: &Job, (): &mut (), out: &mut [u64; 4]) -> u32 {
        call_c!(wadroles_ink(read job.file, number job.thickness,), out)
    }

    fn oracle(job: &Job, (): &mut ()) -> Answer<u64> {
        oracle::ink(&job.file, job.thickness).map_err(|r| (r.number, r.place))
    }

    fn words(_job: &Job, charge: u64) -> Vec<u64> {
        vec![charge]
    }
}
