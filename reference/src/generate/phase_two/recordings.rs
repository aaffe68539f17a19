//! The recordings of the real age client, through both phases at both ends.

use super::exchanges::{Answer, Screen, AMPLE, LONGEST_ANSWER, WORDS};
use crate::generate::commands::{Command, End, PLUGIN};
use crate::generate::phase_one::damaged_text;
use crate::generate::recordings::{Recording, RECORDINGS};
use crate::generate::Script;

pub(super) fn sections(script: &mut Script) {
    for recording in &RECORDINGS {
        script.heading(&format!("The recording {} at the client end, no screen", recording.name));
        at_client(script, recording, Screen::No, &recording.phase_two());
        script.heading(&format!("The recording {} at the client end, the recorded answers", recording.name));
        at_client(script, recording, Screen::Yes, &recording.phase_two());
        let without: Vec<Command> =
            recording.phase_two().into_iter().filter(|command| !is_msg(command)).collect();
        if without.len() < recording.phase_two().len() {
            script.heading(&format!("The recording {} without its messages", recording.name));
            at_client(script, recording, Screen::No, &without);
        }
        script.heading(&format!("The recording {} at the plugin end", recording.name));
        at_plugin(script, recording, recording.plugin);
        script.heading(&format!("The recording {} cut and damaged in phase two", recording.name));
        for _ in 0..8 {
            damaged_at_client(script, recording);
            damaged_at_plugin(script, recording);
        }
    }
    script.heading("A recording of fido2-hmac under another name");
    for recording in RECORDINGS.iter().filter(|recording| recording.plugin != PLUGIN) {
        at_plugin(script, recording, PLUGIN);
    }
}

/// A message with arguments is refused, and the real client's answer to it is one too many.
fn is_msg(command: &Command) -> bool {
    command.word == b"msg"
}

fn enter_client(script: &mut Script, recording: &Recording, screen: Screen) {
    let screen: &[u8] = if screen == Screen::Yes { b"screen" } else { b"no-screen" };
    script.open_client(recording.machine.as_bytes(), recording.plugin, screen, AMPLE);
    script.pass_all(End::Client, &recording.phase_one());
}

/// The client sends phase one and receives the commands. With a screen the host replies what was recorded.
fn at_client(script: &mut Script, recording: &Recording, screen: Screen, commands: &[Command]) {
    enter_client(script, recording, screen);
    let responses = recording.responses();
    for (at, command) in commands.iter().enumerate() {
        script.chunk(&command.text(), LONGEST_ANSWER);
        if let (Screen::Yes, Some(response)) = (screen, responses.get(at)) {
            script.reply(&as_answer(response), LONGEST_ANSWER);
        }
    }
    script.show();
}

/// What a host would reply.
fn as_answer(response: &Command) -> Answer {
    let word = WORDS.into_iter().find(|word| Answer::new(word).text() == response.text());
    Answer::new(word.expect("no recorded response has a body"))
}

/// The plugin receives phase one, sends each command, and receives the responses.
fn at_plugin(script: &mut Script, recording: &Recording, plugin: &[u8]) {
    script.open(End::Plugin, recording.machine, plugin, AMPLE);
    script.pass_all(End::Plugin, &recording.phase_one());
    let responses = recording.responses();
    for (at, command) in recording.phase_two().iter().enumerate() {
        script.send(command, command.text().len());
        if let Some(response) = responses.get(at) {
            script.chunk(&response.text(), 0);
        }
    }
    script.show();
}

/// One stanza of the plugin is damaged on its way.
fn damaged_at_client(script: &mut Script, recording: &Recording) {
    let commands = recording.phase_two();
    let damaged = script.random.below(commands.len());
    enter_client(script, recording, Screen::No);
    for (at, command) in commands.iter().enumerate().skip(damaged.saturating_sub(2)).take(4) {
        let text = command.text();
        let text = if at == damaged { damaged_text(script, &text) } else { text };
        script.chunk(&text, LONGEST_ANSWER);
    }
    script.show();
}

/// One response is damaged on its way.
fn damaged_at_plugin(script: &mut Script, recording: &Recording) {
    let responses = recording.responses();
    let damaged = script.random.below(responses.len());
    script.open(End::Plugin, recording.machine, PLUGIN, AMPLE);
    script.pass_all(End::Plugin, &recording.phase_one());
    let pairs = recording.phase_two().into_iter().zip(responses);
    for (at, (command, response)) in pairs.enumerate().skip(damaged.saturating_sub(2)).take(4) {
        script.send(&command, 100);
        let text = response.text();
        let text = if at == damaged { damaged_text(script, &text) } else { text };
        script.chunk(&text, 9);
    }
    script.show();
}
