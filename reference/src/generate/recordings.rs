//! The recordings of the real age client, as `transcripts/` has them.

use super::commands::Command;
use crate::stanza;

/// One conversation.
pub(super) struct Recording {
    pub(super) name: &'static str,
    pub(super) machine: &'static str,
    pub(super) plugin: &'static [u8],
    /// What the client sent, its responses of phase two included.
    pub(super) text: &'static [u8],
    /// What the plugin sent.
    pub(super) plugin_text: &'static [u8],
}

macro_rules! recording {
    ($name:literal, $machine:literal, $plugin:literal) => {
        Recording {
            name: $name,
            machine: $machine,
            plugin: $plugin,
            text: include_bytes!(concat!("../../transcripts/", $name, ".c2p.bin")),
            plugin_text: include_bytes!(concat!("../../transcripts/", $name, ".p2c.bin")),
        }
    };
}

pub(super) static RECORDINGS: [Recording; 8] = [
    recording!("enc-one", "recipient-v1", b"interop"),
    recording!("enc-several.1", "recipient-v1", b"interop"),
    recording!("enc-identity", "recipient-v1", b"interop"),
    recording!("enc-chat-notty", "recipient-v1", b"interop"),
    recording!("dec-one", "identity-v1", b"interop"),
    recording!("dec-several-stanzas", "identity-v1", b"interop"),
    recording!("dec-fido2-hmac", "identity-v1", b"fido2-hmac"),
    recording!("dec-chat-notty", "identity-v1", b"interop"),
];

/// All stanzas of a text, in order.
fn stanzas(mut text: &[u8]) -> Vec<Command> {
    let mut commands = Vec::new();
    while !text.is_empty() {
        let stanza = stanza::read(text).expect("a recording is whole stanzas");
        let mut body = vec![0; stanza.body_len()];
        stanza.decode_body(&mut body).expect("the buffer has the body's length");
        commands.push(Command::of_line(stanza.arguments(), &body));
        text = &text[stanza.taken()..];
    }
    commands
}

impl Recording {
    /// How many stanzas of the client are phase one, its done included.
    fn phase_one_len(&self) -> usize {
        1 + stanzas(self.text).iter().position(|command| command.word == b"done").expect("a done")
    }

    /// The client's stanzas up to done.
    pub(super) fn phase_one(&self) -> Vec<Command> {
        stanzas(self.text)[..self.phase_one_len()].to_vec()
    }

    /// The plugin's stanzas, done included.
    pub(super) fn phase_two(&self) -> Vec<Command> {
        stanzas(self.plugin_text)
    }

    /// The client's stanzas behind done.
    pub(super) fn responses(&self) -> Vec<Command> {
        stanzas(self.text)[self.phase_one_len()..].to_vec()
    }
}

#[cfg(test)]
mod tests {
    use super::*;
    use crate::generate::commands::text_of_all;

    #[test]
    fn recordings_are_made_of_their_commands() {
        for recording in &RECORDINGS {
            let sent = [recording.phase_one(), recording.responses()].concat();
            assert_eq!(text_of_all(&sent), recording.text, "{}", recording.name);
            assert_eq!(text_of_all(&recording.phase_two()), recording.plugin_text, "{}", recording.name);
            assert!(recording.phase_one().len() >= 3, "{}", recording.name);
            // Each command but done has its response.
            assert_eq!(recording.phase_two().len(), recording.responses().len() + 1, "{}", recording.name);
        }
    }
}
