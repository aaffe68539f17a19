//! The client end: it sends phase one, receives the commands of phase two, and passes on its host's replies.

use super::chunk::{self, Draft, Received, Receiver, Turn};
use super::phase_two::Command;
use super::{phase_one, phase_two, put, written, Buffers, Phase, Response, Session};
use crate::refusal::Refusal;
use crate::stanza::{self, Stanza};

/// The client end.
#[derive(Clone, Debug, PartialEq, Eq)]
pub struct Client {
    pub(super) session: Session,
    screen: bool,
    /// The whole text of the stanza that waits for the host's reply; empty where none does.
    awaited: Vec<u8>,
}

impl Client {
    /// A client session has no screen unless told otherwise (document 02, No. 5).
    pub const SCREEN: bool = false;

    /// Opens a session with the default for the screen.
    pub fn open(machine: &[u8], plugin: &[u8]) -> Result<Self, Refusal> {
        Self::open_with(machine, plugin, Self::SCREEN)
    }

    /// Opens a session with or without a screen.
    pub fn open_with(machine: &[u8], plugin: &[u8], screen: bool) -> Result<Self, Refusal> {
        Ok(Client { session: Session::open(machine, plugin)?, screen, awaited: Vec::new() })
    }

    #[must_use]
    pub fn session(&self) -> &Session {
        &self.session
    }

    /// Whether the session can show and ask; phase two goes by it.
    #[must_use]
    pub fn has_screen(&self) -> bool {
        self.screen
    }

    /// The whole text of the stanza that waits for the host's reply, since no chunk need hold it. It is empty
    /// where none waits, and in a closed session.
    #[must_use]
    pub fn awaited(&self) -> &[u8] {
        &self.awaited
    }

    /// Sends a command of phase one: writes its stanza to the front of `out` and gives the length.
    /// `arguments` has all of them, the command first. It is judged by the text that it makes, and a
    /// command that the machine does not name can be sent too.
    ///
    /// The order is 13, 14, 17, 4, 5, 7, 20, 8, 15. A refusal leaves everything as it was.
    pub fn send(
        &mut self,
        arguments: &[u8],
        body: &[u8],
        buffers: &mut Buffers,
        out: &mut [u8],
    ) -> Result<usize, Refusal> {
        self.session.in_phase(Phase::One)?;
        let text = written(arguments, body)?;
        let stanza = stanza::read(&text)?;
        let step = phase_one::judge(&self.session, &stanza, buffers)?;
        let len = put(&text, out)?;
        buffers.put_all(self.session.apply_phase_one(step));
        Ok(len)
    }

    /// Receives a piece of phase two, of any length: each of its commands, the first of which may have begun
    /// in earlier chunks, up to one that waits for the host's reply; what follows that is kept back. The
    /// responses stand one behind the other at the front of `out`.
    ///
    /// 13 and 14 are for the call: then nothing of the chunk is kept. After that faults are met from the left,
    /// for each stanza in the order 1 to 3, 4, 5, 6, 9, 10, 11, 8, 15; 13 for bytes behind done, which are
    /// dropped. What stood before a fault stands; only 15 leaves everything as it was before the call. 1 and
    /// 3 to 11 close the session.
    pub fn chunk(&mut self, chunk: &[u8], buffers: &mut Buffers, out: &mut [u8]) -> Received<Command> {
        chunk::call(self, buffers, out, |client, draft| {
            client.session.may_command()?;
            chunk::receive(client, chunk, draft)
        })
    }

    /// Passes on the host's reply to the command that waits, and then receives what was kept back behind it,
    /// as `chunk` does. The response and those that follow stand one behind the other at the front of `out`.
    /// What is said to be taken are the commands behind the reply.
    ///
    /// The order is 13, 14, 12, 17, 15; refused so, the session waits on and everything is as it was. After
    /// that come the faults of what was kept back; the reply then stands, unless it is 15.
    pub fn reply(
        &mut self,
        reply: Response,
        body: &[u8],
        buffers: &mut Buffers,
        out: &mut [u8],
    ) -> Received<Command> {
        chunk::call(self, buffers, out, |client, draft| {
            let command = client.session.due()?;
            if !reply.fits(command, body.len()) {
                return Err(Refusal::UnfitResponse);
            }
            draft.write(&reply.text(body)?)?;
            client.session.awaits = None;
            client.awaited.clear();
            chunk::receive(client, b"", draft)
        })
    }

    /// Whether the session waits for its host's reply to the command.
    fn waits(&self, command: Command) -> bool {
        command.asks_the_host() && self.screen
    }

    /// What is answered at once; none to done, and to a command that waits.
    fn at_once(&self, command: Command) -> Option<Response> {
        match command {
            Command::Done => None,
            _ if self.waits(command) => None,
            _ if command.asks_the_host() => Some(Response::Fail),
            Command::Other => Some(Response::Unsupported),
            _ => Some(Response::Ok),
        }
    }
}

impl Receiver for Client {
    type What = Command;

    fn session_mut(&mut self) -> &mut Session {
        &mut self.session
    }

    fn turn(&self) -> Turn {
        if self.session.phase == Phase::Ended {
            Turn::Drop(Refusal::SessionOver)
        } else if self.session.awaits.is_some() {
            Turn::KeepBack
        } else {
            Turn::Read
        }
    }

    /// One command of phase two: 4, 5, 6, 9, 10, 11, 8, 15.
    fn step(&mut self, stanza: &Stanza, draft: &mut Draft<Command>) -> Result<Command, Refusal> {
        let step = phase_two::parse(self.session.machine, stanza)?;
        let command = step.command;
        step.check_rules(&self.session.tables)?;
        step.check_space(&self.session.tables, &draft.buffers)?;
        if let Some(response) = self.at_once(command) {
            draft.write(&response.text(b"")?)?;
        }
        draft.keep(self.session.apply_phase_two(step));
        if self.waits(command) {
            self.session.awaits = Some(command);
            self.awaited = stanza.text().to_vec();
        }
        Ok(command)
    }
}
