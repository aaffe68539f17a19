//! Commands of phase one, and the lines that open a session and pass commands through it.

use super::text::stanza_text;
use super::Script;
use crate::bech32::Kind;
use crate::session::KINDS;

pub(super) const RECIPIENT: &str = "recipient-v1";
pub(super) const IDENTITY: &str = "identity-v1";
pub(super) const MACHINES: [&str; 2] = [RECIPIENT, IDENTITY];

/// The plugin of the recordings, and of most sessions here.
pub(super) const PLUGIN: &[u8] = b"interop";

/// Lengths of the seven buffers that are enough for most conversations here.
pub(super) const ROOMY: [usize; KINDS] = [2_000, 2_000, 1_024, 4_000, 0, 0, 0];

/// The end that a session is opened at.
#[derive(Clone, Copy, Debug, PartialEq, Eq)]
pub(super) enum End {
    Client,
    Plugin,
}

pub(super) const ENDS: [End; 2] = [End::Client, End::Plugin];

/// A command as it is sent: its word, the text of its other arguments, and its body.
#[derive(Clone, Debug, PartialEq, Eq)]
pub(super) struct Command {
    pub(super) word: Vec<u8>,
    pub(super) arguments: Vec<u8>,
    pub(super) body: Vec<u8>,
}

impl Command {
    pub(super) fn new(word: &[u8], arguments: &[u8], body: &[u8]) -> Self {
        Command { word: word.to_vec(), arguments: arguments.to_vec(), body: body.to_vec() }
    }

    /// The command of a text of all its arguments.
    pub(super) fn of_line(line: &[u8], body: &[u8]) -> Self {
        match line.iter().position(|&byte| byte == b' ') {
            Some(space) => Self::new(&line[..space], &line[space + 1..], body),
            None => Self::new(line, b"", body),
        }
    }

    pub(super) fn add_recipient(text: &[u8]) -> Self {
        Self::new(b"add-recipient", text, b"")
    }

    pub(super) fn add_identity(text: &[u8]) -> Self {
        Self::new(b"add-identity", text, b"")
    }

    pub(super) fn wrap_file_key(key: &[u8]) -> Self {
        Self::new(b"wrap-file-key", b"", key)
    }

    /// `line` is the tag and its arguments.
    pub(super) fn recipient_stanza(index: &[u8], line: &[u8], body: &[u8]) -> Self {
        Self::new(b"recipient-stanza", &[index, b" ", line].concat(), body)
    }

    pub(super) fn done() -> Self {
        Self::new(b"done", b"", b"")
    }

    /// All arguments, the command first.
    pub(super) fn line(&self) -> Vec<u8> {
        if self.arguments.is_empty() {
            self.word.clone()
        } else {
            [self.word.as_slice(), b" ", &self.arguments].concat()
        }
    }

    /// The stanza.
    pub(super) fn text(&self) -> Vec<u8> {
        stanza_text(&self.line(), &self.body)
    }
}

/// So many recipients, of which no two have the same text.
pub(super) fn different_recipients(count: usize) -> Vec<Command> {
    (0..count).map(|number| Command::add_recipient(format!("r{number}").as_bytes())).collect()
}

/// The text of commands, one behind the other.
pub(super) fn text_of_all(commands: &[Command]) -> Vec<u8> {
    commands.iter().flat_map(Command::text).collect()
}

/// Header stanzas of the files, one for each.
pub(super) fn headers(files: &[u32]) -> Vec<Command> {
    let header = |file: &u32| Command::recipient_stanza(file.to_string().as_bytes(), b"tag", b"");
    files.iter().map(header).collect()
}

impl Script {
    /// Opens a session, passes the commands through it and shows what is kept.
    pub(super) fn conversation(
        &mut self,
        end: End,
        machine: &str,
        lens: [usize; KINDS],
        commands: &[Command],
    ) {
        self.open(end, machine, PLUGIN, lens);
        self.pass_all(end, commands);
        self.show();
    }

    /// Opens a session; a client is not told of a screen.
    pub(super) fn open(&mut self, end: End, machine: &str, plugin: &[u8], lens: [usize; KINDS]) {
        match end {
            End::Client => self.open_client(machine.as_bytes(), plugin, b"default", lens),
            End::Plugin => self.open_plugin(machine.as_bytes(), plugin, lens),
        }
    }

    /// Opens a session; a client has a screen.
    pub(super) fn open_with_screen(&mut self, end: End, machine: &str, plugin: &[u8], lens: [usize; KINDS]) {
        match end {
            End::Client => self.open_client(machine.as_bytes(), plugin, b"screen", lens),
            End::Plugin => self.open_plugin(machine.as_bytes(), plugin, lens),
        }
    }

    pub(super) fn open_client(&mut self, machine: &[u8], plugin: &[u8], screen: &[u8], lens: [usize; KINDS]) {
        self.call_with_lengths("open client", &[machine, plugin, screen], lens);
    }

    pub(super) fn open_plugin(&mut self, machine: &[u8], plugin: &[u8], lens: [usize; KINDS]) {
        self.call_with_lengths("open plugin", &[machine, plugin], lens);
    }

    pub(super) fn buffers(&mut self, lens: [usize; KINDS]) {
        self.call_with_lengths("buffers", &[], lens);
    }

    fn call_with_lengths(&mut self, call: &str, words: &[&[u8]], lens: [usize; KINDS]) {
        let lens = lens.map(|len| len.to_string());
        let lens = lens.iter().map(String::as_bytes);
        self.call(call, &words.iter().copied().chain(lens).collect::<Vec<_>>());
    }

    pub(super) fn send(&mut self, command: &Command, out: usize) {
        let Command { word, arguments, body } = command;
        self.call("send", &[word, arguments, body, out.to_string().as_bytes()]);
    }

    /// The open session receives a piece of its input.
    pub(super) fn chunk(&mut self, bytes: &[u8], out: usize) {
        self.call("chunk", &[bytes, out.to_string().as_bytes()]);
    }

    /// Passes a command through the open session: the client sends it with an output buffer of just the
    /// length, the plugin receives its stanza in one chunk, and without an output buffer: in phase one nothing
    /// is answered.
    pub(super) fn pass(&mut self, end: End, command: &Command) {
        let text = command.text();
        match end {
            End::Client => self.send(command, text.len()),
            End::Plugin => self.chunk(&text, 0),
        }
    }

    pub(super) fn pass_all(&mut self, end: End, commands: &[Command]) {
        for command in commands {
            self.pass(end, command);
        }
    }

    pub(super) fn entry(&mut self, kind: Kind, number: u64) {
        let word: &[u8] = match kind {
            Kind::Recipient => b"recipient",
            Kind::Identity => b"identity",
        };
        self.call("entry", &[word, number.to_string().as_bytes()]);
    }

    pub(super) fn awaited(&mut self) {
        self.call("awaited", &[]);
    }

    pub(super) fn finish(&mut self) {
        self.call("finish", &[]);
    }

    pub(super) fn show(&mut self) {
        self.call("show", &[]);
    }

    pub(super) fn judge(&mut self, text: &[u8]) {
        self.call("judge", &[text]);
    }

    pub(super) fn profile(&mut self, name: &[u8], line: &[u8], body: &[u8]) {
        self.call("profile", &[name, line, body]);
    }
}
