//! Lines for phase two: its rules, answers, limits and turns, whole conversations, and random ones.

mod answers;
pub(super) mod exchanges;
pub(super) mod good;
mod limits;
mod lines;
mod order;
pub(super) mod random;
mod recordings;
mod rules;
mod turns;
mod whole;

use super::Script;

/// All sections; they begin with openings of their own.
pub(super) fn sections(script: &mut Script) {
    rules::sections(script);
    answers::sections(script);
    limits::sections(script);
    turns::sections(script);
    order::sections(script);
    lines::sections(script);
    recordings::sections(script);
    whole::sections(script);
    random::sections(script);
}
