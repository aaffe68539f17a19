//! Worked examples, each refusal, and what it leaves behind: each phase at both ends, and input in chunks.

mod chunks;
mod phase_one;
mod phase_two;

use super::{written, KINDS};

const LENGTHS: [usize; KINDS] = [4_096; KINDS];

/// The text of a stanza.
fn text(arguments: &str, body: &[u8]) -> Vec<u8> {
    written(arguments.as_bytes(), body).unwrap()
}
