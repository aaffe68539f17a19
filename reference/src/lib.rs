//! The second program of Flugremio, written from the papers alone (documents 01 and 02, DESIGN.md, READINGS.md,
//! REPLAY.md).
//!
//! It has stanza text, indices, Bech32, the stanza check, old identity files, both ends of both phases with
//! input in chunks, the judging program, a replay of test scripts, and the generator of the stored script.

pub mod base64;
pub mod bech32;
pub mod generate;
pub mod identity_file;
pub mod index;
pub mod judge;
pub mod profile;
pub mod refusal;
pub mod replay;
pub mod script;
pub mod session;
pub mod stanza;
