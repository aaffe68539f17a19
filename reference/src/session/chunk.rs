//! Input in chunks (document 02, No. 1; the paper's "dribs"): the fold over the stanzas of a chunk, for both
//! ends. What one stanza does is each end's own step.
//!
//! A call works on a copy of the session and on a draft of what it writes. Only 15 throws both away: then
//! nothing of the call stands.

use super::tables::{Buffers, Payload};
use super::{closes, Session};
use crate::refusal::Refusal;
use crate::stanza::{self, Stanza};

/// So many bytes may be kept back behind a command that waits.
pub const KEPT_BACK_LIMIT: usize = 8_192;

/// What a call that receives came to. A refused one has taken what stood before the fault.
#[derive(Clone, Copy, Debug, PartialEq, Eq)]
pub struct Received<T> {
    pub refusal: Option<Refusal>,
    /// How many commands or responses were taken, and the last of them.
    pub count: usize,
    pub last: Option<T>,
    /// How many bytes stand at the front of the output buffer.
    pub written: usize,
}

impl<T> Received<T> {
    /// Nothing was taken.
    fn refused(refusal: Refusal) -> Self {
        Received { refusal: Some(refusal), count: 0, last: None, written: 0 }
    }

    /// The same as a result, for callers to whom what stood before the fault is nothing.
    pub fn accepted(self) -> Result<Self, Refusal> {
        match self.refusal {
            Some(refusal) => Err(refusal),
            None => Ok(self),
        }
    }
}

/// What a call will have written if it stands, and what it has taken so far.
pub(super) struct Draft<T> {
    /// The buffers that the call is lent, with what it has kept so far: their lengths decide 8, and what they
    /// show decides 20.
    pub(super) buffers: Buffers,
    /// The length of the output buffer that the call is lent.
    space: usize,
    output: Vec<u8>,
    count: usize,
    last: Option<T>,
}

impl<T> Draft<T> {
    fn new(buffers: Buffers, space: usize) -> Self {
        Draft { buffers, space, output: Vec::new(), count: 0, last: None }
    }

    /// Puts a text behind what the call has written so far; 15 if together they are too long.
    pub(super) fn write(&mut self, text: &[u8]) -> Result<(), Refusal> {
        if text.len() > self.space - self.output.len() {
            return Err(Refusal::OutputTooShort);
        }
        self.output.extend(text);
        Ok(())
    }

    /// A payload for one of the buffers, if there is one.
    pub(super) fn keep(&mut self, payload: Option<Payload>) {
        self.buffers.put_all(payload);
    }

    fn take(&mut self, what: T) {
        self.count += 1;
        self.last = Some(what);
    }
}

/// What is to become of bytes that an open session has before it.
pub(super) enum Turn {
    /// A stanza is awaited.
    Read,
    /// A host's reply is due first.
    KeepBack,
    /// None are awaited: they are dropped unread, and the call is refused with the number.
    Drop(Refusal),
}

/// An end, as the fold sees it.
pub(super) trait Receiver: Clone {
    /// A command or a response.
    type What;

    fn session_mut(&mut self) -> &mut Session;

    /// Only asked while the session is not closed.
    fn turn(&self) -> Turn;

    /// Receives one stanza. A refusal leaves the end and the draft as they were.
    fn step(&mut self, stanza: &Stanza, draft: &mut Draft<Self::What>) -> Result<Self::What, Refusal>;
}

/// Makes a call that receives: `work` is done on a copy of the end, and stands unless it comes to 15.
pub(super) fn call<E: Receiver>(
    end: &mut E,
    buffers: &mut Buffers,
    out: &mut [u8],
    work: impl FnOnce(&mut E, &mut Draft<E::What>) -> Result<(), Refusal>,
) -> Received<E::What> {
    let mut after = end.clone();
    let mut draft = Draft::new(buffers.clone(), out.len());
    let refusal = work(&mut after, &mut draft).err();
    if refusal == Some(Refusal::OutputTooShort) {
        return Received::refused(Refusal::OutputTooShort);
    }
    let Draft { buffers: lent, output, count, last, .. } = draft;
    *end = after;
    *buffers = lent;
    out[..output.len()].copy_from_slice(&output);
    Received { refusal, count, last, written: output.len() }
}

/// Receives the kept bytes and the chunk as one text. A refusal of the other end's making closes the session.
pub(super) fn receive<E: Receiver>(
    end: &mut E,
    chunk: &[u8],
    draft: &mut Draft<E::What>,
) -> Result<(), Refusal> {
    let kept = std::mem::take(&mut end.session_mut().kept);
    let received = match kept.is_empty() {
        true => receive_stanzas(end, chunk, draft),
        false => receive_stanzas(end, &[kept.as_slice(), chunk].concat(), draft),
    };
    if received.is_err_and(closes) {
        end.session_mut().close();
    }
    received
}

/// Takes stanzas from the left until nothing is left, the rest is kept or dropped, or one is refused.
fn receive_stanzas<E: Receiver>(
    end: &mut E,
    mut text: &[u8],
    draft: &mut Draft<E::What>,
) -> Result<(), Refusal> {
    while !text.is_empty() {
        match end.turn() {
            Turn::Read => {}
            Turn::KeepBack => return keep_back(end.session_mut(), text),
            Turn::Drop(refusal) => return Err(refusal),
        }
        let stanza = match stanza::read(text) {
            Ok(stanza) => stanza,
            Err(Refusal::NotEnded) => {
                end.session_mut().kept = text.to_vec();
                return Ok(());
            }
            Err(refusal) => return Err(refusal),
        };
        let what = end.step(&stanza, draft)?;
        draft.take(what);
        text = &text[stanza.taken()..];
    }
    Ok(())
}

/// Keeps what follows a command that waits, until its reply; 15 if it is too long.
fn keep_back(session: &mut Session, text: &[u8]) -> Result<(), Refusal> {
    if text.len() > KEPT_BACK_LIMIT {
        return Err(Refusal::OutputTooShort);
    }
    session.kept = text.to_vec();
    Ok(())
}
