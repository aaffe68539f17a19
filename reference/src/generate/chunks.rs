//! Lines for input in chunks (document 02, No. 1): cuts, faults in mid-chunk, limits, states, and random calls.

mod cuts;
mod faults;
mod limits;
pub(super) mod live;
mod random;
mod states;
#[cfg(test)]
mod tests;

use super::Script;

/// All sections; they begin with openings of their own.
pub(super) fn sections(script: &mut Script) {
    cuts::sections(script);
    faults::sections(script);
    limits::sections(script);
    states::sections(script);
    random::sections(script);
}
