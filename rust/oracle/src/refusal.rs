/// A numbered refusal of the specification.
#[derive(Clone, Copy, Debug, PartialEq, Eq)]
pub struct Refusal {
    /// The number of the rule that was broken.
    pub number: u32,
    /// The least place that fits.
    pub place: u64,
}

/// Refuses the first of the places, which must rise, where `broken` holds.
pub(crate) fn refuse_least(
    number: u32,
    mut places: impl Iterator<Item = usize>,
    broken: impl Fn(usize) -> bool,
) -> Result<(), Refusal> {
    match places.find(|&place| broken(place)) {
        Some(place) => Err(Refusal {
            number,
            place: place as u64,
        }),
        None => Ok(()),
    }
}

/// Refuses with place 0 if `broken`.
pub(crate) fn refuse_if(number: u32, broken: bool) -> Result<(), Refusal> {
    refuse_at(number, 0, broken)
}

/// Refuses the place if `broken`.
pub(crate) fn refuse_at(number: u32, place: usize, broken: bool) -> Result<(), Refusal> {
    if broken {
        Err(Refusal {
            number,
            place: place as u64,
        })
    } else {
        Ok(())
    }
}
