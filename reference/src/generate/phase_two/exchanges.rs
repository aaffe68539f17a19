//! Commands of phase two with their answers, and the lines that pass them through a session.

use crate::bech32::Kind;
use crate::generate::bech32::text_of;
use crate::generate::commands::{Command, End, IDENTITY, RECIPIENT};
use crate::generate::text::stanza_text;
use crate::generate::Script;
use crate::session::KINDS;

/// A plugin with a short name, whose recipients and identities are short too.
pub(in crate::generate) const SHORT: &[u8] = b"a";
pub(in crate::generate) const FIDO2_HMAC: &[u8] = b"fido2-hmac";

/// Lengths of the seven buffers that are enough for most conversations here.
pub(in crate::generate) const AMPLE: [usize; KINDS] = [2_000, 2_000, 1_024, 4_000, 2_000, 2_000, 1_024];

/// No response without a body is longer.
pub(in crate::generate) const LONGEST_ANSWER: usize = b"-> unsupported\n\n".len();

/// Commands that the client's host answers.
const FOR_THE_HOST: [&[u8]; 4] = [b"msg", b"confirm", b"request-public", b"request-secret"];

/// A response, by the one word that replay has for it, and its body.
#[derive(Clone, Debug, PartialEq, Eq)]
pub(in crate::generate) struct Answer {
    pub(in crate::generate) word: &'static str,
    pub(in crate::generate) body: Vec<u8>,
}

/// The five words.
pub(in crate::generate) const WORDS: [&str; 5] = ["ok", "yes", "no", "fail", "unsupported"];

impl Answer {
    pub(in crate::generate) fn new(word: &'static str) -> Self {
        Self::with_body(word, b"")
    }

    pub(in crate::generate) fn with_body(word: &'static str, body: &[u8]) -> Self {
        Answer { word, body: body.to_vec() }
    }

    /// The stanza.
    pub(in crate::generate) fn text(&self) -> Vec<u8> {
        let arguments = match self.word {
            "yes" => "ok yes",
            "no" => "ok no",
            word => word,
        };
        stanza_text(arguments.as_bytes(), &self.body)
    }
}

/// A command and its answer; done has none.
#[derive(Clone, Debug, PartialEq, Eq)]
pub(in crate::generate) struct Exchange {
    pub(in crate::generate) command: Command,
    pub(in crate::generate) answer: Option<Answer>,
}

impl Exchange {
    pub(in crate::generate) fn new(command: Command, answer: Answer) -> Self {
        Exchange { command, answer: Some(answer) }
    }

    /// A line of arguments, a body, and the answer's word.
    pub(in crate::generate) fn of_line(line: &str, body: &[u8], word: &'static str) -> Self {
        Self::new(Command::of_line(line.as_bytes(), body), Answer::new(word))
    }

    pub(in crate::generate) fn done() -> Self {
        Exchange { command: Command::done(), answer: None }
    }

    pub(in crate::generate) fn error(cause: &str, message: &[u8]) -> Self {
        Self::of_line(&format!("error {cause}"), message, "ok")
    }

    pub(in crate::generate) fn file_key(file: u32) -> Self {
        Self::of_line(&format!("file-key {file}"), &[b'k'; 16], "ok")
    }

    pub(in crate::generate) fn stanza(file: u32, line: &str) -> Self {
        Self::of_line(&format!("recipient-stanza {file} {line}"), b"", "ok")
    }

    pub(in crate::generate) fn asks_the_host(&self) -> bool {
        FOR_THE_HOST.contains(&self.command.word.as_slice())
    }
}

/// How a client is opened.
#[derive(Clone, Copy, Debug, PartialEq, Eq)]
pub(in crate::generate) enum Screen {
    Yes,
    No,
    /// It is not told: that is no.
    Untold,
}

impl Screen {
    /// The word of an opening.
    fn word(self) -> &'static [u8] {
        match self {
            Screen::Yes => b"screen",
            Screen::No => b"no-screen",
            Screen::Untold => b"default",
        }
    }
}

/// A phase one, and how the session is opened.
#[derive(Clone, Debug)]
pub(in crate::generate) struct Start {
    pub(in crate::generate) machine: &'static str,
    pub(in crate::generate) plugin: &'static [u8],
    pub(in crate::generate) phase_one: Vec<Command>,
}

/// A recipient of the plugin with the short name.
pub(in crate::generate) fn recipient() -> Command {
    Command::add_recipient(&text_of(Kind::Recipient, SHORT, b""))
}

/// Another for each number.
pub(in crate::generate) fn other_recipient(number: u8) -> Command {
    Command::add_recipient(&text_of(Kind::Recipient, SHORT, &[number]))
}

/// An identity of the plugin with the short name.
pub(in crate::generate) fn identity() -> Command {
    Command::add_identity(&text_of(Kind::Identity, SHORT, b""))
}

pub(in crate::generate) fn file_key() -> Command {
    Command::wrap_file_key(&[b'f'; 16])
}

fn header(file: u32, line: &[u8], body: &[u8]) -> Command {
    Command::recipient_stanza(file.to_string().as_bytes(), line, body)
}

/// Header stanzas of fido2-hmac: one that conforms, one that does not, one that is unknown.
pub(in crate::generate) fn conforming(file: u32) -> Command {
    let line = [b"fido2-hmac ".as_slice(), &[b'A'; 43], b" ", &[b'A'; 16]].concat();
    header(file, &line, &[b'h'; 32])
}

pub(in crate::generate) fn nonconforming(file: u32) -> Command {
    header(file, FIDO2_HMAC, b"")
}

pub(in crate::generate) fn unknown(file: u32) -> Command {
    header(file, b"X", b"")
}

impl Start {
    pub(in crate::generate) fn new(
        machine: &'static str,
        plugin: &'static [u8],
        phase_one: &[Command],
    ) -> Self {
        Start { machine, plugin, phase_one: phase_one.to_vec() }
    }

    /// recipient-v1: a recipient, an identity and two file keys, all valid.
    pub(in crate::generate) fn recipient() -> Self {
        Self::new(RECIPIENT, SHORT, &[recipient(), identity(), file_key(), file_key()])
    }

    /// identity-v1: an identity, and header stanzas of the files 3, 3 and 7.
    pub(in crate::generate) fn identity() -> Self {
        Self::new(IDENTITY, SHORT, &[identity(), unknown(3), unknown(3), unknown(7)])
    }

    /// identity-v1 of fido2-hmac: file 0 conforms, file 1 does not, file 2 is unknown, file 3 has all three.
    pub(in crate::generate) fn findings() -> Self {
        let file_3 = [unknown(3), conforming(3), nonconforming(3)];
        let others = [conforming(0), nonconforming(1), unknown(2)];
        Self::new(IDENTITY, FIDO2_HMAC, &[others, file_3].concat())
    }

    pub(in crate::generate) fn of_both_machines() -> [Self; 2] {
        [Self::recipient(), Self::identity()]
    }
}

impl Script {
    /// Opens a session and passes phase one and its done; a client has a screen.
    pub(in crate::generate) fn enter(&mut self, end: End, start: &Start, lens: [usize; KINDS]) {
        self.open_with_screen(end, start.machine, start.plugin, lens);
        self.pass_all(end, &start.phase_one);
        self.pass(end, &Command::done());
    }

    /// Opens a client and passes phase one and its done.
    pub(in crate::generate) fn enter_client(&mut self, screen: Screen, start: &Start, lens: [usize; KINDS]) {
        self.open_client(start.machine.as_bytes(), start.plugin, screen.word(), lens);
        self.pass_all(End::Client, &start.phase_one);
        self.pass(End::Client, &Command::done());
    }

    pub(in crate::generate) fn reply(&mut self, answer: &Answer, out: usize) {
        self.call("reply", &[answer.word.as_bytes(), &answer.body, out.to_string().as_bytes()]);
    }

    /// Passes a command and its answer through the open session, output buffers of just the lengths: the
    /// plugin sends the one and receives the other; the client receives, and its host replies where asked.
    pub(in crate::generate) fn exchange(&mut self, end: End, exchange: &Exchange) {
        match end {
            End::Client => self.exchange_at_client(Screen::Yes, exchange),
            End::Plugin => self.exchange_at_plugin(exchange),
        }
    }

    pub(in crate::generate) fn exchange_at_client(&mut self, screen: Screen, exchange: &Exchange) {
        let text = exchange.command.text();
        match &exchange.answer {
            None => self.chunk(&text, 0),
            Some(answer) if exchange.asks_the_host() && screen == Screen::Yes => {
                self.chunk(&text, 0);
                self.reply(answer, answer.text().len());
            }
            Some(_) if exchange.asks_the_host() => self.chunk(&text, Answer::new("fail").text().len()),
            Some(answer) => self.chunk(&text, answer.text().len()),
        }
    }

    fn exchange_at_plugin(&mut self, exchange: &Exchange) {
        self.send(&exchange.command, exchange.command.text().len());
        if let Some(answer) = &exchange.answer {
            self.chunk(&answer.text(), answer.body.len());
        }
    }

    pub(in crate::generate) fn exchange_all(&mut self, end: End, exchanges: &[Exchange]) {
        for exchange in exchanges {
            self.exchange(end, exchange);
        }
    }

    /// A session that has passed phase one passes the exchanges, and shows what is kept.
    pub(in crate::generate) fn story(&mut self, end: End, start: &Start, exchanges: &[Exchange]) {
        self.enter(end, start, AMPLE);
        self.exchange_all(end, exchanges);
        self.show();
    }
}
