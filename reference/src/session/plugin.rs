//! The plugin end: it receives phase one, sends the commands of phase two, and receives the responses.

use super::chunk::{self, Draft, Received, Receiver, Turn};
use super::phase_two::Command;
use super::{body, phase_one, phase_two, put, written, Buffers, Phase, Response, Session};
use crate::refusal::Refusal;
use crate::stanza::{self, Stanza};

/// The plugin end.
#[derive(Clone, Debug, PartialEq, Eq)]
pub struct Plugin {
    pub(super) session: Session,
}

/// What the plugin end receives: the commands of phase one, and in phase two the responses.
#[derive(Clone, Copy, Debug, PartialEq, Eq)]
pub enum What {
    Command(phase_one::Command),
    Response(Response),
}

impl Plugin {
    /// Opens a session.
    pub fn open(machine: &[u8], plugin: &[u8]) -> Result<Self, Refusal> {
        Ok(Plugin { session: Session::open(machine, plugin)? })
    }

    #[must_use]
    pub fn session(&self) -> &Session {
        &self.session
    }

    /// Receives a piece of the input, of any length: in phase one its commands, in phase two the response that
    /// is due, whose decoded body is written to the front of `out`. The first stanza may have begun in
    /// earlier chunks.
    ///
    /// 13 is for the call. After that faults are met from the left, for each stanza in the order 1 to 3, then
    /// 4, 5, 7, 20, 8 for a command and 12, 15 for a response; 14 for bytes that none awaits, which are dropped
    /// unread. What stood before a fault stands; only 15 leaves everything as it was before the call. 1, 3 to
    /// 8, 12 and 20 close the session.
    pub fn chunk(&mut self, chunk: &[u8], buffers: &mut Buffers, out: &mut [u8]) -> Received<What> {
        chunk::call(self, buffers, out, |plugin, draft| {
            plugin.session.not_over()?;
            chunk::receive(plugin, chunk, draft)
        })
    }

    /// Sends a command of phase two: writes its stanza to the front of `out` and gives the length. It is kept
    /// when it is sent, and then its response is due, unless it is done. `arguments` and what is judged are
    /// as in the client's `send`.
    ///
    /// The order is 13, 14, 17, 4, 5, 6, 9, 10, 11, 19, 8, 15. A refusal leaves everything as it was.
    pub fn send(
        &mut self,
        arguments: &[u8],
        body: &[u8],
        buffers: &mut Buffers,
        out: &mut [u8],
    ) -> Result<usize, Refusal> {
        self.session.may_command()?;
        let text = written(arguments, body)?;
        let stanza = stanza::read(&text)?;
        let step = phase_two::parse(self.session.machine, &stanza)?;
        let command = step.command;
        step.check_rules(&self.session.tables)?;
        step.check_duties(&self.session.tables)?;
        step.check_space(&self.session.tables, buffers)?;
        let len = put(&text, out)?;
        buffers.put_all(self.session.apply_phase_two(step));
        self.session.awaits = (command != Command::Done).then_some(command);
        Ok(len)
    }

    /// One command of phase one: 4, 5, 7, 20, 8.
    fn command(&mut self, stanza: &Stanza, draft: &mut Draft<What>) -> Result<phase_one::Command, Refusal> {
        let step = phase_one::judge(&self.session, stanza, &draft.buffers)?;
        let command = step.command;
        draft.keep(self.session.apply_phase_one(step));
        Ok(command)
    }

    /// The response that is due: 12, 15.
    fn response(&mut self, stanza: &Stanza, draft: &mut Draft<What>) -> Result<Response, Refusal> {
        let command = self.session.due()?;
        let response = Response::named(stanza.arguments()).ok_or(Refusal::UnfitResponse)?;
        if !response.fits(command, stanza.body_len()) {
            return Err(Refusal::UnfitResponse);
        }
        draft.write(&body(stanza))?;
        self.session.awaits = None;
        Ok(response)
    }
}

impl Receiver for Plugin {
    type What = What;

    fn session_mut(&mut self) -> &mut Session {
        &mut self.session
    }

    fn turn(&self) -> Turn {
        if self.session.phase == Phase::One || self.session.awaits.is_some() {
            Turn::Read
        } else {
            Turn::Drop(Refusal::OutOfTurn)
        }
    }

    fn step(&mut self, stanza: &Stanza, draft: &mut Draft<What>) -> Result<What, Refusal> {
        match self.session.phase {
            Phase::One => self.command(stanza, draft).map(What::Command),
            _ => self.response(stanza, draft).map(What::Response),
        }
    }
}
