//! The calls of a session as each program makes them: the library as lines of a replay script, the second program and plain C in this process.

use reference::script;
use reference::session::{Buffers, Client, Plugin, Response, KINDS};
use reference::stanza::LIMIT;

/// The lengths of the seven buffers.
const LENGTHS: [usize; KINDS] = [65_536, 16_384, 1_024, 65_536, 4_096, 65_536, 4_096];

#[derive(Clone, Copy, PartialEq, Eq)]
pub enum End {
    /// With a screen.
    Client,
    Plugin,
}

#[derive(Clone)]
pub enum Call {
    Open {
        end: End,
        machine: &'static str,
        name: &'static str,
    },
    /// All arguments, the command first, and the body.
    Send(String, Vec<u8>),
    /// A piece of the end's input.
    Chunk(Vec<u8>),
    Reply(Response),
}

impl Call {
    /// Its line in a script.
    pub fn line(&self) -> String {
        match self {
            Call::Open { end: End::Client, machine, name } => {
                format!("open client {machine} {name} screen {}", lengths())
            }
            Call::Open { end: End::Plugin, machine, name } => {
                format!("open plugin {machine} {name} {}", lengths())
            }
            Call::Send(arguments, body) => {
                let (command, rest) = arguments.split_once(' ').unwrap_or((arguments, ""));
                format!("send {command} {} {} {LIMIT}\n", word(rest.as_bytes()), word(body))
            }
            Call::Chunk(bytes) => format!("chunk {} {LIMIT}\n", word(bytes)),
            Call::Reply(response) => {
                format!("reply {} \\e {LIMIT}\n", format!("{response:?}").to_lowercase())
            }
        }
    }
}

/// The lengths as the last words of a line.
fn lengths() -> String {
    LENGTHS.map(|length| format!("{length:05}")).join(" ") + "\n"
}

/// A line that makes no call and gives all buffers their whole length: its words are as long as those of an opening, and like a first opening it clears
/// nothing.
pub fn buffers_line() -> String {
    format!("buffers{}\n", " 65536".repeat(KINDS))
}

/// A word of a script.
fn word(bytes: &[u8]) -> String {
    let mut word = Vec::new();
    script::escape(bytes, &mut word);
    String::from_utf8(word).expect("escapes are ASCII")
}

/// A program that makes the calls in this process. Each call gives how many bytes it took or wrote, and none may be refused. Plain C takes one
/// whole stanza a chunk.
#[derive(Clone, Copy, Debug, PartialEq, Eq)]
pub enum Within {
    Second,
    PlainC,
}

impl Within {
    /// Makes the calls of one session, the first of which opens it.
    pub fn make(self, calls: &[Call]) -> usize {
        let mut out = [0; LIMIT];
        match self {
            Within::Second => {
                let mut buffers = Buffers::zeros(LENGTHS);
                let mut opened = None;
                calls.iter().map(|call| second(&mut opened, call, &mut buffers, &mut out)).sum()
            }
            Within::PlainC => calls.iter().map(|call| plain(call, &mut out)).sum(),
        }
    }
}

/// A session of the second program.
enum Opened {
    Client(Client),
    Plugin(Plugin),
}

fn second(opened: &mut Option<Opened>, call: &Call, buffers: &mut Buffers, out: &mut [u8]) -> usize {
    let done = match (call, opened) {
        (Call::Open { end, machine, name }, opened) => {
            let (machine, name) = (machine.as_bytes(), name.as_bytes());
            let session = match end {
                End::Client => Client::open_with(machine, name, true).map(Opened::Client),
                End::Plugin => Plugin::open(machine, name).map(Opened::Plugin),
            };
            session.map(|session| *opened = Some(session)).map(|()| 0)
        }
        (Call::Send(arguments, body), Some(Opened::Client(client))) => {
            client.send(arguments.as_bytes(), body, buffers, out)
        }
        (Call::Send(arguments, body), Some(Opened::Plugin(plugin))) => {
            plugin.send(arguments.as_bytes(), body, buffers, out)
        }
        (Call::Chunk(bytes), Some(Opened::Client(client))) => {
            client.chunk(bytes, buffers, out).accepted().map(|_| bytes.len())
        }
        (Call::Chunk(bytes), Some(Opened::Plugin(plugin))) => {
            plugin.chunk(bytes, buffers, out).accepted().map(|_| bytes.len())
        }
        (Call::Reply(response), Some(Opened::Client(client))) => {
            client.reply(*response, b"", buffers, out).accepted().map(|replied| replied.written)
        }
        _ => panic!("a call that this end does not have"),
    };
    done.expect("the second program accepts the call")
}

extern "C" {
    fn plain_open(client: i32, name: *const u8, name_len: usize);
    fn plain_send(
        line: *const u8,
        line_len: usize,
        body: *const u8,
        body_len: usize,
        out: *mut u8,
        out_len: usize,
    ) -> usize;
    fn plain_receive(text: *const u8, len: usize, out: *mut u8, out_len: usize) -> usize;
    fn plain_response(text: *const u8, len: usize) -> usize;
}

fn plain(call: &Call, out: &mut [u8]) -> usize {
    // SAFETY: the pointers come from references, and a name has at most 32 bytes.
    let done = unsafe {
        match call {
            Call::Open { end, name, .. } => {
                plain_open((*end == End::Client).into(), name.as_ptr(), name.len());
                return 0;
            }
            Call::Send(line, body) => {
                plain_send(line.as_ptr(), line.len(), body.as_ptr(), body.len(), out.as_mut_ptr(), out.len())
            }
            Call::Chunk(text) if text.starts_with(b"-> ok") => plain_response(text.as_ptr(), text.len()),
            Call::Chunk(text) => plain_receive(text.as_ptr(), text.len(), out.as_mut_ptr(), out.len()),
            Call::Reply(_) => panic!("plain C has no replies"),
        }
    };
    assert_ne!(done, 0, "plain C accepts the call");
    done
}
