//! A client session that makes each call as its line is written, so that the next lines can go by it; and cuts.

use crate::generate::commands::Command;
use crate::generate::phase_two::exchanges::{Answer, Screen, Start, WORDS};
use crate::generate::Script;
use crate::session::{phase_two, Buffers, Client, Phase, Received, Response, KINDS};

/// The longest output buffer that a line can lend.
const LONGEST_OUT: usize = 65_536;

/// A client session beside the script.
pub(in crate::generate) struct Live {
    client: Client,
    buffers: Buffers,
    /// How many commands were taken.
    pub(in crate::generate) taken: usize,
}

impl Live {
    /// Opens a client and passes phase one and its done.
    pub(in crate::generate) fn enter(
        script: &mut Script,
        screen: Screen,
        start: &Start,
        lens: [usize; KINDS],
    ) -> Self {
        script.enter_client(screen, start, lens);
        let opened = Client::open_with(start.machine.as_bytes(), start.plugin, screen == Screen::Yes);
        let mut client = opened.expect("both names are good");
        let mut buffers = Buffers::zeros(lens);
        for command in start.phase_one.iter().chain([&Command::done()]) {
            let mut out = [0; 1_000];
            // With short buffers phase one may be refused here and there.
            let _ = client.send(&command.line(), &command.body, &mut buffers, &mut out);
        }
        Live { client, buffers, taken: 0 }
    }

    pub(in crate::generate) fn waits(&self) -> bool {
        self.client.session().awaits().is_some()
    }

    pub(in crate::generate) fn is_over(&self) -> bool {
        matches!(self.client.session().phase(), Phase::Ended | Phase::Closed)
    }

    pub(in crate::generate) fn chunk(&mut self, script: &mut Script, bytes: &[u8], out: usize) {
        script.chunk(bytes, out);
        self.taken += self.client.chunk(bytes, &mut self.buffers, &mut vec![0; out]).count;
    }

    pub(in crate::generate) fn reply(&mut self, script: &mut Script, answer: &Answer, out: usize) {
        script.reply(answer, out);
        let reply = response(answer);
        self.taken += self.client.reply(reply, &answer.body, &mut self.buffers, &mut vec![0; out]).count;
    }

    pub(in crate::generate) fn buffers(&mut self, script: &mut Script, lens: [usize; KINDS]) {
        script.buffers(lens);
        self.buffers.resize(lens);
    }

    /// How much the chunk would write.
    pub(in crate::generate) fn chunk_len(&self, bytes: &[u8]) -> usize {
        self.len(|client, buffers, out| client.chunk(bytes, buffers, out))
    }

    /// How much the reply would write, what follows it included.
    pub(in crate::generate) fn reply_len(&self, answer: &Answer) -> usize {
        self.len(|client, buffers, out| client.reply(response(answer), &answer.body, buffers, out))
    }

    fn len(
        &self,
        call: impl FnOnce(&mut Client, &mut Buffers, &mut [u8]) -> Received<phase_two::Command>,
    ) -> usize {
        let (mut client, mut buffers) = (self.client.clone(), self.buffers.clone());
        call(&mut client, &mut buffers, &mut vec![0; LONGEST_OUT]).written
    }

    /// The chunk, with an output buffer one byte too short before one of just the length.
    pub(in crate::generate) fn chunk_exactly(&mut self, script: &mut Script, bytes: &[u8]) {
        let len = self.chunk_len(bytes);
        if len > 0 {
            self.chunk(script, bytes, len - 1);
        }
        self.chunk(script, bytes, len);
    }

    /// The reply, with an output buffer one byte too short before one of just the length.
    pub(in crate::generate) fn reply_exactly(&mut self, script: &mut Script, answer: &Answer) {
        let len = self.reply_len(answer);
        if len > 0 {
            self.reply(script, answer, len - 1);
        }
        self.reply(script, answer, len);
    }
}

/// The reply that the answer is.
pub(in crate::generate) fn response(answer: &Answer) -> Response {
    let at = WORDS.iter().position(|&word| word == answer.word).expect("one of the five words");
    Response::ALL[at]
}

/// How a text is cut into chunks.
#[derive(Clone, Copy, Debug, PartialEq, Eq)]
pub(in crate::generate) enum Cut {
    Whole,
    Bytes,
    /// Into pieces of any length, now and then an empty one.
    Anyhow,
}

/// The pieces of a text, in order.
pub(in crate::generate) fn pieces(script: &mut Script, text: &[u8], cut: Cut) -> Vec<Vec<u8>> {
    let mut pieces = Vec::new();
    let mut rest = text;
    while !rest.is_empty() {
        let most = match cut {
            Cut::Whole => rest.len(),
            Cut::Bytes => 1,
            Cut::Anyhow => some_len(script),
        };
        let (piece, behind) = rest.split_at(most.min(rest.len()));
        pieces.push(piece.to_vec());
        rest = behind;
    }
    pieces
}

fn some_len(script: &mut Script) -> usize {
    let bound = [2, 8, 40, 40, 100, 300][script.random.below(6)];
    script.random.below(bound)
}
