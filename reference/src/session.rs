//! Both ends of a conversation: opening, whose turn it is, look-ups (document 01, "Phase one", "Phase two" and
//! "Numbers given back"). `client` and `plugin` have the calls of each end, `chunk` what both have in receiving.

mod chunk;
mod client;
pub mod phase_one;
pub mod phase_two;
mod plugin;
mod response;
mod tables;

pub use chunk::{Received, KEPT_BACK_LIMIT};
pub use client::Client;
pub use plugin::{Plugin, What};
pub use response::Response;
use tables::Payload;
pub use tables::{Buffers, Cause, Detail, Entry, Kind, Tables, KINDS};

use crate::bech32;
use crate::refusal::Refusal;
use crate::stanza;

/// A file key has so many bytes.
pub const FILE_KEY_BYTES: usize = 16;

/// What a conversation is for.
#[derive(Clone, Copy, Debug, PartialEq, Eq)]
pub enum Machine {
    /// recipient-v1: file keys are wrapped.
    Recipient,
    /// identity-v1: file keys are unwrapped.
    Identity,
}

impl Machine {
    /// The machine of a name, by its exact bytes; 18 if it is neither's.
    pub fn named(name: &[u8]) -> Result<Self, Refusal> {
        match name {
            b"recipient-v1" => Ok(Machine::Recipient),
            b"identity-v1" => Ok(Machine::Identity),
            _ => Err(Refusal::UnknownMachine),
        }
    }
}

/// How far a conversation is.
#[derive(Clone, Copy, Debug, PartialEq, Eq)]
pub enum Phase {
    One,
    Two,
    /// The done of phase two has passed.
    Ended,
    /// A fault of the other end's making has closed the session.
    Closed,
}

/// What both ends keep.
#[derive(Clone, Debug, PartialEq, Eq)]
pub struct Session {
    machine: Machine,
    /// The plugin's name, in lower case.
    plugin: Vec<u8>,
    phase: Phase,
    /// The command of phase two whose answer is due: at the client end its host's, at the plugin end the
    /// client's. None in every other phase.
    awaits: Option<phase_two::Command>,
    tables: Tables,
    /// What is kept of the input from call to call: while a host's reply is due, what was kept back behind its
    /// command; else the front of a stanza that has not ended.
    kept: Vec<u8>,
}

impl Session {
    /// 18, then 17 for a name that is none or has an upper-case letter.
    fn open(machine: &[u8], plugin: &[u8]) -> Result<Self, Refusal> {
        let machine = Machine::named(machine)?;
        if !bech32::is_name(plugin) {
            return Err(Refusal::Unwritable);
        }
        let (phase, awaits, tables, kept) = (Phase::One, None, Tables::default(), Vec::new());
        Ok(Session { machine, plugin: plugin.to_vec(), phase, awaits, tables, kept })
    }

    #[must_use]
    pub fn phase(&self) -> Phase {
        self.phase
    }

    /// The command whose answer is due.
    #[must_use]
    pub fn awaits(&self) -> Option<phase_two::Command> {
        self.awaits
    }

    #[must_use]
    pub fn tables(&self) -> &Tables {
        &self.tables
    }

    /// Declares the input ended: 13 if the session is closed, 2 if the conversation has not ended. It changes
    /// nothing and is not remembered.
    pub fn finish(&self) -> Result<(), Refusal> {
        match self.phase {
            Phase::Ended => Ok(()),
            Phase::Closed => Err(Refusal::SessionOver),
            Phase::One | Phase::Two => Err(Refusal::NotEnded),
        }
    }

    /// The text of a recipient or an identity, as a part of its buffer; empty if there is none or the
    /// buffer is too short for it. This works in every state.
    #[must_use]
    pub fn entry<'b>(&self, kind: bech32::Kind, number: u64, buffers: &'b Buffers) -> &'b [u8] {
        self.tables.payload(kind.into(), number, buffers)
    }

    /// 13 if the session is closed or ended.
    fn not_over(&self) -> Result<(), Refusal> {
        match self.phase {
            Phase::Ended | Phase::Closed => Err(Refusal::SessionOver),
            Phase::One | Phase::Two => Ok(()),
        }
    }

    /// 13 if the session is over, 14 if it is in the other phase.
    fn in_phase(&self, phase: Phase) -> Result<(), Refusal> {
        self.not_over()?;
        if self.phase != phase {
            return Err(Refusal::OutOfTurn);
        }
        Ok(())
    }

    /// Whether a command of phase two may come: 13, then 14 in phase one or while an answer is due.
    fn may_command(&self) -> Result<(), Refusal> {
        self.in_phase(Phase::Two)?;
        if self.awaits.is_some() {
            return Err(Refusal::OutOfTurn);
        }
        Ok(())
    }

    /// The command whose answer may come: 13, then 14 in phase one or while none is due.
    fn due(&self) -> Result<phase_two::Command, Refusal> {
        self.in_phase(Phase::Two)?;
        self.awaits.ok_or(Refusal::OutOfTurn)
    }

    /// Does what an accepted command of phase one does; gives the payload that belongs in a buffer.
    fn apply_phase_one(&mut self, step: phase_one::Step) -> Option<Payload> {
        if step.command == phase_one::Command::Done {
            self.phase = Phase::Two;
        }
        step.addition.map(|addition| self.tables.keep(addition))
    }

    /// Does what an accepted command of phase two does; gives the payload that belongs in a buffer. Whether it
    /// waits is the end's to say.
    fn apply_phase_two(&mut self, step: phase_two::Step) -> Option<Payload> {
        if step.command == phase_two::Command::Done {
            self.phase = Phase::Ended;
        }
        step.addition.map(|addition| self.tables.keep(addition))
    }

    /// The other end has made a fault: nothing is awaited any more, and nothing kept of the input.
    fn close(&mut self) {
        self.phase = Phase::Closed;
        self.awaits = None;
        self.kept.clear();
    }
}

/// Whether a refusal in receiving closes the session.
fn closes(refusal: Refusal) -> bool {
    use Refusal::{OutOfTurn, OutputTooShort, SessionOver};
    !matches!(refusal, SessionOver | OutOfTurn | OutputTooShort)
}

/// The text of a stanza; 17 if there is none.
fn written(arguments: &[u8], body: &[u8]) -> Result<Vec<u8>, Refusal> {
    let mut text = vec![0; stanza::LIMIT];
    let len = stanza::write(arguments, body, &mut text)?;
    text.truncate(len);
    Ok(text)
}

/// Puts the text at the front of the output buffer and gives its length; 15 leaves the buffer as it was.
fn put(text: &[u8], out: &mut [u8]) -> Result<usize, Refusal> {
    let out = out.get_mut(..text.len()).ok_or(Refusal::OutputTooShort)?;
    out.copy_from_slice(text);
    Ok(text.len())
}

/// The first argument of a text, and what stands behind its space, if there is more.
fn split_word(arguments: &[u8]) -> (&[u8], Option<&[u8]>) {
    match arguments.iter().position(|&byte| byte == b' ') {
        Some(space) => (&arguments[..space], Some(&arguments[space + 1..])),
        None => (arguments, None),
    }
}

/// A stanza's decoded body.
fn body(stanza: &stanza::Stanza) -> Vec<u8> {
    let mut body = vec![0; stanza.body_len()];
    stanza.decode_body(&mut body).expect("the buffer has the body's length");
    body
}

#[cfg(test)]
mod tests;
