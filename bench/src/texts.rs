//! The texts that are measured: a header stanza as a client sends it, with a body as X25519 has it and with one of 4 KiB; a recipient and
//! an identity, with a payload as a compressed public key has it, 33 bytes, with one of 600, and as long as they may be; an identity file of 64 such.

use crate::work::{Task, STANZA_TASKS};
use reference::bech32::{self, Kind};
use reference::stanza;

/// The arguments of both stanzas, the command first.
pub const ARGUMENTS: &[u8] = b"recipient-stanza 0 X25519 TEiF0ypqr+bpvcqXNyCVJpL7OuwPdVwPL7KQEbFDOCc";

/// The name of the plugin in the recipients and identities.
pub const NAME: &[u8] = b"yubikey";

/// A name with which a recipient and an identity can have 1,024 characters.
pub const LONG_NAME: &str = "inter-op";

/// The longest text of a stanza; a recipient or an identity is shorter.
pub const LIMIT: usize = stanza::LIMIT;

/// How many bytes the commands of 64 identities of 1,024 characters have, and done.
pub const FILE_OUTPUT: usize = 66_697;

/// A text to measure.
pub struct Measured {
    pub name: &'static str,
    /// The body of the stanza, or the payload.
    pub content: Vec<u8>,
    /// The plugin of a recipient or an identity.
    pub plugin: &'static [u8],
    pub text: Vec<u8>,
    /// What is measured on it.
    pub tasks: Vec<Task>,
}

/// The stanzas have 117 and 5,621 bytes, the recipients 71, 978 and 1,024, the identities 79, 986 and 1,024.
pub fn measured() -> Vec<Measured> {
    vec![
        a_stanza("small", 32, 117),
        a_stanza("4k", 4_096, 5_621),
        bech32_text("recipient-33", Kind::Recipient, NAME, 33, 71),
        bech32_text("recipient-600", Kind::Recipient, NAME, 600, 978),
        bech32_text("recipient-628", Kind::Recipient, LONG_NAME.as_bytes(), 628, 1_024),
        bech32_text("identity-33", Kind::Identity, NAME, 33, 79),
        bech32_text("identity-600", Kind::Identity, NAME, 600, 986),
        bech32_text("identity-623", Kind::Identity, LONG_NAME.as_bytes(), 623, 1_024),
        identity_file(),
    ]
}

fn a_stanza(name: &'static str, body_len: usize, text_len: usize) -> Measured {
    let content = bytes(body_len);
    let text = written(|out| stanza::write(ARGUMENTS, &content, out).ok());
    assert_eq!(text.len(), text_len);
    Measured { name, content, plugin: b"", text, tasks: STANZA_TASKS.to_vec() }
}

fn bech32_text(
    name: &'static str,
    kind: Kind,
    plugin: &'static [u8],
    payload_len: usize,
    text_len: usize,
) -> Measured {
    let content = bytes(payload_len);
    let text = written(|out| bech32::write(kind, plugin, &content, out).ok());
    assert_eq!(text.len(), text_len);
    Measured { name, content, plugin, text, tasks: vec![Task::ReadText(kind), Task::WriteText(kind)] }
}

/// A file of 64 identities of 1,024 characters.
fn identity_file() -> Measured {
    let identity = bech32_text("", Kind::Identity, LONG_NAME.as_bytes(), 623, 1_024).text;
    let line = [&identity[..], b"\n"].concat();
    Measured { name: "identity-file", content: vec![], plugin: b"", text: line.repeat(64), tasks: vec![Task::ReadFile] }
}

/// The text that the second program writes.
pub fn written(write: impl Fn(&mut [u8]) -> Option<usize>) -> Vec<u8> {
    let mut text = vec![0; LIMIT];
    let len = write(&mut text).expect("what can be written");
    text.truncate(len);
    text
}

/// So many bytes, of all values.
pub fn bytes(len: usize) -> Vec<u8> {
    (0..len).map(|at| (at * 89 + at / 256 + len) as u8).collect()
}
