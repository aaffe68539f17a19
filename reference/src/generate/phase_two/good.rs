//! Random conversations that are good at both ends: a phase one, and a phase two that obeys every rule.

use super::exchanges::{
    conforming, file_key, nonconforming, unknown, Answer, Exchange, Start, FIDO2_HMAC, SHORT,
};
use crate::bech32::Kind;
use crate::generate::bech32::text_of;
use crate::generate::commands::{Command, IDENTITY, MACHINES, RECIPIENT};
use crate::generate::phase_one::some_words;
use crate::generate::Script;
use crate::profile::Finding;
use crate::session::{self, Buffers, Detail, Plugin, Tables, KINDS};

/// Words that neither machine names in phase two.
const UNKNOWN: [&str; 9] =
    ["grease", "Msg", "msg!", "add-recipient", "wrap-file-key", "ok", "labels", "Done", "~"];

/// A phase one of up to eight commands. In three of four all recipients and identities are valid.
pub(in crate::generate) fn some_start(script: &mut Script) -> Start {
    let machine = MACHINES[script.random.below(2)];
    let plugins = if machine == RECIPIENT { [SHORT, SHORT] } else { [SHORT, FIDO2_HMAC] };
    let plugin = plugins[script.random.below(2)];
    let valid = script.random.below(4) > 0;
    let mut phase_one = Vec::new();
    let mut file = 0;
    for _ in 0..2 + script.random.below(7) {
        let command = match (script.random.below(10), machine) {
            (0..=2, _) => Command::add_identity(&some_text(script, Kind::Identity, plugin, valid)),
            (3..=5, RECIPIENT) => Command::add_recipient(&some_text(script, Kind::Recipient, plugin, valid)),
            (6..=8, RECIPIENT) => file_key(),
            (3..=8, _) => {
                file += script.random.below(3) as u32;
                some_header(script, plugin, file)
            }
            _ => Command::new(b"grease", b"", b""),
        };
        // A recipient may not repeat.
        if command.word != b"add-recipient" || !phase_one.contains(&command) {
            phase_one.push(command);
        }
    }
    Start::new(machine, plugin, &phase_one)
}

/// A recipient or identity of the plugin, or, where it may be, an invalid one.
fn some_text(script: &mut Script, kind: Kind, plugin: &[u8], valid: bool) -> Vec<u8> {
    match script.random.below(4) {
        0 if !valid => b"x".to_vec(),
        1 if !valid => text_of(kind, b"b", b""),
        _ => {
            let len = script.random.below(3);
            let payload = script.random.bytes(len);
            text_of(kind, plugin, &payload)
        }
    }
}

fn some_header(script: &mut Script, plugin: &[u8], file: u32) -> Command {
    match script.random.below(6) {
        0 | 1 if plugin == FIDO2_HMAC => conforming(file),
        2 if plugin == FIDO2_HMAC => nonconforming(file),
        3 => {
            let line = some_words(script, 2);
            Command::recipient_stanza(file.to_string().as_bytes(), &line, b"body")
        }
        _ => unknown(file),
    }
}

/// What the tables of phase one say.
struct Facts {
    recipients: Vec<bool>,
    identities: Vec<bool>,
    file_keys: u32,
    headers: Vec<(u32, Finding)>,
}

impl Facts {
    fn of(start: &Start) -> Self {
        let tables = phase_one_tables(start);
        let valid =
            |kind| tables.details(kind).map(|detail| detail == Detail::Text { fault: None }).collect();
        let header = |detail| match detail {
            Detail::Header { file, finding } => Some((file, finding)),
            _ => None,
        };
        Facts {
            recipients: valid(session::Kind::Recipient),
            identities: valid(session::Kind::Identity),
            file_keys: tables.of(session::Kind::FileKey).len() as u32,
            headers: tables.details(session::Kind::Header).filter_map(header).collect(),
        }
    }

    fn has_invalid(&self) -> bool {
        self.recipients.iter().chain(&self.identities).any(|&valid| !valid)
    }

    /// What must have an error before done.
    fn causes(&self) -> Vec<String> {
        let invalid = |kind: &str, valid: &[bool]| -> Vec<String> {
            let numbers = (0..valid.len()).filter(|&number| !valid[number]);
            numbers.map(|number| format!("{kind} {number}")).collect()
        };
        let mut causes = invalid("recipient", &self.recipients);
        causes.extend(invalid("identity", &self.identities));
        let faulty = |place: &usize| self.headers[*place].1 == Finding::Nonconforming;
        causes.extend((0..self.headers.len()).filter(faulty).map(|place| self.stanza_cause(place)));
        causes
    }

    /// What an error for a header stanza of the session says: its file, and its number there.
    fn stanza_cause(&self, place: usize) -> String {
        let file = self.headers[place].0;
        let number = self.headers[..place].iter().filter(|header| header.0 == file).count();
        format!("stanza {file} {number}")
    }
}

fn phase_one_tables(start: &Start) -> Tables {
    let mut plugin = Plugin::open(start.machine.as_bytes(), start.plugin).expect("both names are good");
    let mut buffers = Buffers::zeros([10_000; KINDS]);
    for command in &start.phase_one {
        plugin.chunk(&command.text(), &mut buffers, &mut []).accepted().expect("phase one is good");
    }
    plugin.session().tables().clone()
}

/// Work, the errors that are owed and some that are not, talk and unknown commands in any order, and done.
pub(in crate::generate) fn some_exchanges(script: &mut Script, start: &Start) -> Vec<Exchange> {
    let facts = Facts::of(start);
    let mut exchanges = Vec::new();
    for cause in facts.causes() {
        exchanges.push(some_error(script, &cause));
    }
    let work = match start.machine {
        RECIPIENT => some_wrapping(script, &facts),
        _ => some_unwrapping(script, &facts),
    };
    exchanges.extend(work);
    for _ in 0..script.random.below(4) {
        exchanges.push(some_talk(script));
    }
    for _ in 0..script.random.below(2) {
        exchanges.push(some_unknown(script, start.machine));
    }
    shuffle(script, &mut exchanges);
    exchanges.push(Exchange::done());
    exchanges
}

fn some_error(script: &mut Script, cause: &str) -> Exchange {
    let message = some_message(script);
    Exchange::error(cause, &message)
}

fn some_message(script: &mut Script) -> Vec<u8> {
    let len = script.random.below(5) * script.random.below(6);
    if script.random.below(8) == 0 {
        script.random.bytes(len)
    } else {
        script.random.letters(len)
    }
}

/// Stanzas for some files, or, if there are invalid entries and now and then, errors.
fn some_wrapping(script: &mut Script, facts: &Facts) -> Vec<Exchange> {
    if facts.has_invalid() || script.random.below(5) == 0 {
        return some_errors(script, facts);
    }
    let most = (facts.recipients.len() + facts.identities.len()).min(3);
    let mut stanzas = Vec::new();
    for file in 0..facts.file_keys {
        for _ in 0..script.random.below(most + 1) {
            let (line, body) = (some_words(script, 2), some_message(script));
            let command = Command::recipient_stanza(file.to_string().as_bytes(), &line, &body);
            stanzas.push(Exchange::new(command, Answer::new("ok")));
        }
    }
    stanzas
}

/// Errors that nobody asked for.
fn some_errors(script: &mut Script, facts: &Facts) -> Vec<Exchange> {
    let mut causes = vec!["internal".to_string()];
    causes.extend((0..facts.recipients.len()).map(|number| format!("recipient {number}")));
    causes.extend((0..facts.identities.len()).map(|number| format!("identity {number}")));
    let mut errors = Vec::new();
    for _ in 0..script.random.below(3) {
        let cause = causes[script.random.below(causes.len())].clone();
        errors.push(some_error(script, &cause));
    }
    errors
}

/// For each file a key or, for one of its conforming stanzas, an error, or nothing; and other errors.
fn some_unwrapping(script: &mut Script, facts: &Facts) -> Vec<Exchange> {
    let mut work = some_errors(script, facts);
    let mut files: Vec<u32> = facts.headers.iter().map(|header| header.0).collect();
    files.dedup();
    for file in files {
        let of_file = |finding| facts.headers.iter().position(|&header| header == (file, finding));
        let held_back = facts.has_invalid() || of_file(Finding::Nonconforming).is_some();
        match (script.random.below(4), of_file(Finding::Conforming)) {
            (0, Some(place)) => work.push(some_error(script, &facts.stanza_cause(place))),
            (1..=3, _) if !held_back => {
                let line = format!("file-key {file}");
                let key = script.random.letters(16);
                work.push(Exchange::of_line(&line, &key, "ok"));
            }
            _ => {}
        }
    }
    work
}

/// A command that is kept, of a good form and with indices that name something; whether the rules allow it
/// beside the others is another matter.
pub(in crate::generate) fn some_kept(script: &mut Script, start: &Start) -> Exchange {
    let facts = Facts::of(start);
    let choice = script.random.below(4);
    if start.machine == RECIPIENT && choice > 0 && facts.file_keys > 0 {
        let file = script.random.below(facts.file_keys as usize);
        return Exchange::stanza(file as u32, "again");
    }
    if facts.headers.is_empty() || choice == 0 {
        return some_error(script, "internal");
    }
    let place = script.random.below(facts.headers.len());
    match choice {
        1 => some_error(script, &facts.stanza_cause(place)),
        _ => Exchange::file_key(facts.headers[place].0),
    }
}

/// A message, a question or a request, with an answer that fits.
pub(in crate::generate) fn some_talk(script: &mut Script) -> Exchange {
    let message = some_message(script);
    let (line, words): (&str, &[&'static str]) = match script.random.below(5) {
        0 => ("msg", &["ok", "fail"]),
        1 => ("confirm eWVz", &["yes", "no", "fail"]),
        2 => ("confirm T0s bm90IG5vdw", &["yes", "no", "fail"]),
        3 => ("request-public", &["ok", "ok", "fail"]),
        _ => ("request-secret", &["ok", "ok", "fail"]),
    };
    let word = words[script.random.below(words.len())];
    let body = if line.starts_with("request") && word == "ok" { some_message(script) } else { Vec::new() };
    Exchange::new(Command::of_line(line.as_bytes(), &message), Answer::with_body(word, &body))
}

/// A command that the machine does not name.
fn some_unknown(script: &mut Script, machine: &str) -> Exchange {
    let of_the_other = if machine == IDENTITY { "recipient-stanza" } else { "file-key" };
    let word = match script.random.below(4) {
        0 => of_the_other,
        _ => UNKNOWN[script.random.below(UNKNOWN.len())],
    };
    let arguments = if script.random.below(2) == 0 { Vec::new() } else { some_words(script, 3) };
    let body = some_message(script);
    Exchange::new(Command::new(word.as_bytes(), &arguments, &body), Answer::new("unsupported"))
}

fn shuffle<T>(script: &mut Script, items: &mut [T]) {
    for at in (1..items.len()).rev() {
        items.swap(at, script.random.below(at + 1));
    }
}

#[cfg(test)]
mod tests {
    use super::*;
    use crate::session::{Client, Phase, Response};

    /// Both ends accept all of it, each hearing what the other wrote.
    #[test]
    fn good_conversations_are_accepted() {
        let mut script = Script::new();
        for _ in 0..500 {
            let start = some_start(&mut script);
            let exchanges = some_exchanges(&mut script, &start);
            let mut buffers = [Buffers::zeros([10_000; KINDS]), Buffers::zeros([10_000; KINDS])];
            let mut client = Client::open_with(start.machine.as_bytes(), start.plugin, true).unwrap();
            let mut plugin = Plugin::open(start.machine.as_bytes(), start.plugin).unwrap();
            let mut out = vec![0; 10_000];
            for command in start.phase_one.iter().chain([&Command::done()]) {
                let len = client.send(&command.line(), &command.body, &mut buffers[0], &mut out).unwrap();
                plugin.chunk(&out[..len], &mut buffers[1], &mut []).accepted().unwrap();
            }
            for exchange in &exchanges {
                let Command { body, .. } = &exchange.command;
                let len = plugin.send(&exchange.command.line(), body, &mut buffers[1], &mut out).unwrap();
                assert_eq!(out[..len], exchange.command.text());
                let command = exchange.command.text();
                let received = client.chunk(&command, &mut buffers[0], &mut out).accepted().unwrap();
                let Some(answer) = &exchange.answer else { continue };
                let reply = Response::ALL[["ok", "yes", "no", "fail", "unsupported"]
                    .iter()
                    .position(|&word| word == answer.word)
                    .unwrap()];
                let received = match client.session().awaits() {
                    Some(_) => {
                        client.reply(reply, &answer.body, &mut buffers[0], &mut out).accepted().unwrap()
                    }
                    None => received,
                };
                assert_eq!(out[..received.written], answer.text());
                plugin.chunk(&answer.text(), &mut buffers[1], &mut out).accepted().unwrap();
            }
            assert_eq!(client.session(), plugin.session());
            assert_eq!(client.session().phase(), Phase::Ended);
        }
    }
}
