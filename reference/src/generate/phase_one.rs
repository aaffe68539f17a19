//! Random phase ones, good and damaged, at both ends and in both machines.

use super::bech32::text_of;
use super::commands::{Command, End, ENDS, MACHINES, RECIPIENT, ROOMY};
use super::profile::some_stanza;
use super::text::{exchanged, replaced};
use super::Script;
use crate::bech32::Kind;
use crate::session::KINDS;

const PLUGINS: [&[u8]; 6] = [b"interop", b"fido2-hmac", b"fido2-hmac", b"a", b"1-", b"+._"];

/// Words that only recipient-v1 names in phase one, and those that only identity-v1 names.
const RECIPIENT_WORDS: [&[u8]; 2] = [b"add-recipient", b"wrap-file-key"];
const IDENTITY_WORDS: [&[u8]; 1] = [b"recipient-stanza"];

/// Words that neither machine names in phase one.
const UNKNOWN: [&[u8]; 10] =
    [b"Done", b"done!", b"add-identit", b"recipient", b"grease", b"msg", b"file-key", b"error", b"ok", b"~"];

/// First arguments that are no index, or a very large one.
const INDICES: [&[u8]; 8] = [b"01", b"00", b"-1", b"+1", b"x", b"1x", b"4294967295", b"4294967296"];

/// What replaces a byte of a text.
const DAMAGE: &[u8] = b"\n\n  \r=Aa->\x00\x7f\xff";

pub(super) fn sections(script: &mut Script) {
    script.heading("Random phase ones");
    for _ in 0..320 {
        let opening = some_opening(script);
        let phase = some_phase(script, opening.machine, opening.plugin);
        conversation(script, &opening, ROOMY, &phase);
    }
    script.heading("Random phase ones: buffers exactly long enough or nearly so");
    for _ in 0..450 {
        let opening = some_opening(script);
        let phase = some_phase(script, opening.machine, opening.plugin);
        let lens = near_lengths(script, &phase);
        conversation(script, &opening, lens, &phase);
    }
    script.heading("Random phase ones: commands damaged or in another order");
    for _ in 0..500 {
        let opening = some_opening(script);
        let phase = some_phase(script, opening.machine, opening.plugin);
        let phase = damaged_phase(script, phase);
        conversation(script, &opening, ROOMY, &phase);
    }
    script.heading("Random phase ones: stanzas damaged on their way to the plugin");
    for _ in 0..400 {
        let Opening { machine, plugin, .. } = some_opening(script);
        let phase = some_phase(script, machine, plugin);
        damaged_on_the_way(script, machine, plugin, &phase);
    }
    script.heading(
        "Random calls: buffers that change, stanzas cut or with more behind them, short output buffers",
    );
    for _ in 0..360 {
        random_calls(script);
    }
}

/// How a session is opened.
struct Opening {
    end: End,
    machine: &'static str,
    plugin: &'static [u8],
}

fn some_opening(script: &mut Script) -> Opening {
    let end = ENDS[script.random.below(2)];
    let machine = MACHINES[script.random.below(2)];
    Opening { end, machine, plugin: PLUGINS[script.random.below(PLUGINS.len())] }
}

/// Opens a session, passes the commands through it and shows what is kept.
fn conversation(script: &mut Script, opening: &Opening, lens: [usize; KINDS], phase: &[Command]) {
    script.open(opening.end, opening.machine, opening.plugin, lens);
    script.pass_all(opening.end, phase);
    some_entry(script);
    script.show();
}

/// Looks up an entry that may be there.
fn some_entry(script: &mut Script) {
    let kind = [Kind::Recipient, Kind::Identity][script.random.below(2)];
    let number = script.random.below(3) as u64;
    script.entry(kind, number);
}

/// Up to six commands, and done.
pub(super) fn some_phase(script: &mut Script, machine: &str, plugin: &[u8]) -> Vec<Command> {
    let mut phase = Vec::new();
    let mut file = 0;
    for _ in 0..script.random.below(7) {
        file += script.random.below(3) * script.random.below(3);
        let command = some_command(script, machine, plugin, file);
        // A recipient may not repeat.
        if command.word != b"add-recipient" || !phase.contains(&command) {
            phase.push(command);
        }
    }
    phase.push(Command::done());
    phase
}

/// A command of a good form; a header stanza is of the file.
fn some_command(script: &mut Script, machine: &str, plugin: &[u8], file: usize) -> Command {
    match (script.random.below(8), machine) {
        (0 | 1, _) => Command::add_identity(&some_text(script, Kind::Identity, plugin)),
        (2 | 3, RECIPIENT) => Command::add_recipient(&some_text(script, Kind::Recipient, plugin)),
        (4 | 5, RECIPIENT) => Command::wrap_file_key(&script.random.letters(16)),
        (2..=5, _) => some_header(script, plugin, file),
        _ => some_unknown(script, machine),
    }
}

/// The text of a recipient or identity: of the plugin, of another, damaged, or no Bech32 at all.
fn some_text(script: &mut Script, kind: Kind, plugin: &[u8]) -> Vec<u8> {
    let payload_len = script.random.below(5);
    let payload = script.random.bytes(payload_len);
    let text = text_of(kind, plugin, &payload);
    match script.random.below(6) {
        0 => text_of(kind, b"other", &payload),
        1 => {
            let (at, character) = (script.random.below(text.len()), script.random.one_of(b"qQpP1-"));
            replaced(&text, at, character)
        }
        2 => {
            let len = 1 + script.random.below(9);
            script.random.argument(len)
        }
        _ => text,
    }
}

/// A header stanza of the file, for fido2-hmac often one of its own.
fn some_header(script: &mut Script, plugin: &[u8], file: usize) -> Command {
    let index = file.to_string();
    if plugin == b"fido2-hmac" && script.random.below(2) == 0 {
        let (line, body) = some_stanza(script);
        return Command::recipient_stanza(index.as_bytes(), &line, &body);
    }
    let line = some_words(script, 3);
    let body_len = script.random.below(8) * script.random.below(8);
    let body = script.random.letters(body_len);
    Command::recipient_stanza(index.as_bytes(), &line, &body)
}

/// One to so many arguments of 1 to 6 bytes.
pub(super) fn some_words(script: &mut Script, most: usize) -> Vec<u8> {
    let mut words: Vec<Vec<u8>> = Vec::new();
    for _ in 0..=script.random.below(most) {
        let len = 1 + script.random.below(6);
        words.push(script.random.argument(len));
    }
    words.join(&b' ')
}

/// A command that the machine does not name, with any arguments and body.
fn some_unknown(script: &mut Script, machine: &str) -> Command {
    let of_the_other: &[&[u8]] = if machine == RECIPIENT { &IDENTITY_WORDS } else { &RECIPIENT_WORDS };
    let words = if script.random.below(4) == 0 { of_the_other } else { &UNKNOWN };
    let word = words[script.random.below(words.len())];
    let arguments = if script.random.below(2) == 0 { Vec::new() } else { some_words(script, 3) };
    let body_len = script.random.below(5) * script.random.below(6);
    let body = script.random.letters(body_len);
    Command::new(word, &arguments, &body)
}

/// For each kind the length that its payloads have together, or a length near it.
fn near_lengths(script: &mut Script, phase: &[Command]) -> [usize; KINDS] {
    payload_lengths(phase).map(|len| {
        let less = script.random.below(len + 1);
        [len, len, len, len, len, len + 1, len.saturating_sub(1), less][script.random.below(8)]
    })
}

/// How many payload bytes the commands of each kind have together.
fn payload_lengths(phase: &[Command]) -> [usize; KINDS] {
    let of = |word: &[u8], len: fn(&Command) -> usize| {
        phase.iter().filter(|command| command.word == word).map(len).sum()
    };
    [
        of(b"add-recipient", |command| command.arguments.len()),
        of(b"add-identity", |command| command.arguments.len()),
        of(b"wrap-file-key", |command| command.body.len()),
        of(b"recipient-stanza", header_payload_length),
        0,
        0,
        0,
    ]
}

/// What stands behind the index and its space, an LF, and the body.
fn header_payload_length(command: &Command) -> usize {
    let line = command.arguments.splitn(2, |&byte| byte == b' ').nth(1).unwrap_or_default();
    line.len() + 1 + command.body.len()
}

/// The phase with one thing wrong or in another place.
fn damaged_phase(script: &mut Script, mut phase: Vec<Command>) -> Vec<Command> {
    let at = script.random.below(phase.len());
    let other = script.random.below(phase.len());
    match script.random.below(8) {
        0 => phase.swap(at, other),
        1 => phase.insert(at, phase[other].clone()),
        2 => phase.reverse(),
        _ => phase[at] = damaged_command(script, &phase[at]),
    }
    phase
}

/// The command with other arguments, another body or another word.
pub(super) fn damaged_command(script: &mut Script, command: &Command) -> Command {
    let Command { mut word, mut arguments, mut body } = command.clone();
    match script.random.below(8) {
        0 => arguments.clear(),
        1 if arguments.is_empty() => arguments.extend(b"more"),
        1 => arguments.extend(b" more"),
        2 => body.push(b'b'),
        3 => body.truncate(body.len().saturating_sub(1)),
        4 => arguments = with_other_index(script, &arguments),
        5 => arguments = arguments.split(|&byte| byte == b' ').next().unwrap_or_default().to_vec(),
        6 => arguments.extend(script.random.bytes(1)),
        _ => {
            let at = script.random.below(word.len());
            word[at] = script.random.argument(1)[0];
        }
    }
    Command { word, arguments, body }
}

/// The arguments with another first one.
fn with_other_index(script: &mut Script, arguments: &[u8]) -> Vec<u8> {
    let index = INDICES[script.random.below(INDICES.len())];
    let rest = arguments.iter().position(|&byte| byte == b' ').map_or(b"".as_slice(), |at| &arguments[at..]);
    [index, rest].concat()
}

/// A text, not empty, with a byte changed, dropped or doubled, neighbours exchanged, or cut.
pub(super) fn damaged_text(script: &mut Script, text: &[u8]) -> Vec<u8> {
    let at = script.random.below(text.len());
    match script.random.below(6) {
        0 => text[..at].to_vec(),
        1 => [&text[..at], &text[at + 1..]].concat(),
        2 => [&text[..=at], &text[at..]].concat(),
        3 => exchanged(text, at, (at + 1).min(text.len() - 1)),
        _ => replaced(text, at, script.random.one_of(DAMAGE)),
    }
}

/// A plugin session that receives one damaged stanza among good ones, and goes on.
pub(super) fn damaged_on_the_way(script: &mut Script, machine: &str, plugin: &[u8], phase: &[Command]) {
    let damaged = script.random.below(phase.len());
    script.open(End::Plugin, machine, plugin, ROOMY);
    for (at, command) in phase.iter().enumerate() {
        let text = command.text();
        let text = if at == damaged { damaged_text(script, &text) } else { text };
        script.chunk(&text, 0);
    }
    script.show();
}

/// A session at either end whose buffers change from call to call.
fn random_calls(script: &mut Script) {
    let opening = some_opening(script);
    let phase = some_phase(script, opening.machine, opening.plugin);
    let lens = near_lengths(script, &phase);
    script.open(opening.end, opening.machine, opening.plugin, lens);
    for command in &phase {
        match opening.end {
            End::Client => random_send(script, command),
            End::Plugin => random_receive(script, command),
        }
        if script.random.below(4) == 0 {
            let lens = near_lengths(script, &phase);
            script.buffers(lens);
        }
    }
    some_entry(script);
    script.show();
}

/// Sends with an output buffer that may be too short, and then perhaps again.
fn random_send(script: &mut Script, command: &Command) {
    let len = command.text().len();
    let out = [len, len, len + 1, len - 1, 0, 65_536][script.random.below(6)];
    script.send(command, out);
    if out < len {
        script.send(command, len);
    }
}

/// Receives a stanza that may be cut in two, and now and then has more behind it.
fn random_receive(script: &mut Script, command: &Command) {
    let mut text = command.text();
    if script.random.below(3) == 0 {
        let rest = text.split_off(script.random.below(text.len()));
        script.chunk(&text, 0);
        text = rest;
    }
    let tail = some_tail(script, b"-> done\n\n");
    script.chunk(&[text.as_slice(), tail].concat(), 0);
}

/// Now and then something behind a stanza: its like, the front of another, or what is none.
pub(super) fn some_tail(script: &mut Script, like: &'static [u8]) -> &'static [u8] {
    match script.random.below(12) {
        0 => like,
        1 => &like[..4],
        2 => b"\r",
        _ => b"",
    }
}

#[cfg(test)]
mod tests {
    use super::*;
    use crate::session::{Buffers, Client, Plugin};

    /// Good phases are accepted in buffers of exactly their payloads' lengths.
    #[test]
    fn payload_lengths_are_exact() {
        let mut script = Script::new();
        for _ in 0..300 {
            let Opening { machine, plugin, .. } = some_opening(&mut script);
            let phase = some_phase(&mut script, machine, plugin);
            let mut buffers = Buffers::zeros(payload_lengths(&phase));
            let mut session = Plugin::open(machine.as_bytes(), plugin).unwrap();
            for command in &phase {
                session.chunk(&command.text(), &mut buffers, &mut []).accepted().unwrap();
            }
        }
    }

    /// So the texts of the lines that receive are those of the lines that send.
    #[test]
    fn a_client_writes_the_text_of_its_command() {
        let mut script = Script::new();
        for _ in 0..300 {
            let Opening { machine, plugin, .. } = some_opening(&mut script);
            let phase = some_phase(&mut script, machine, plugin);
            let mut buffers = Buffers::zeros(ROOMY);
            let mut session = Client::open(machine.as_bytes(), plugin).unwrap();
            for command in &phase {
                let mut out = command.text();
                out.fill(0);
                let sent = session.send(&command.line(), &command.body, &mut buffers, &mut out);
                assert_eq!(sent, Ok(out.len()));
                assert_eq!(out, command.text());
            }
        }
    }
}
