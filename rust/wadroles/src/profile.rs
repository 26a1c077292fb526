/// The profile of a layer file: its layers as they are cut, or cleaned.
#[derive(Clone, Copy)]
pub(crate) enum Profile {
    Full,
    Clean,
}
