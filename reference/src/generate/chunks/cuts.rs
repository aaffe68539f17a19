//! Good conversations, however they are cut: the recordings, and random ones, at both ends.

use super::live::{pieces, Cut, Live};
use crate::generate::commands::{text_of_all, Command, End};
use crate::generate::phase_two::exchanges::{Answer, Exchange, Screen, Start, AMPLE, WORDS};
use crate::generate::phase_two::good::{some_exchanges, some_start};
use crate::generate::recordings::{Recording, RECORDINGS};
use crate::generate::Script;

pub(super) fn sections(script: &mut Script) {
    for recording in &RECORDINGS {
        let Conversation { start, exchanges } = recorded(recording);
        for cut in [Cut::Whole, Cut::Bytes, Cut::Anyhow, Cut::Anyhow] {
            script.heading(&format!("The recording {}, cut: {cut:?}", recording.name));
            at_plugin(script, &start, &exchanges, cut);
            at_client(script, Screen::Yes, &start, &exchanges, cut);
            at_client(script, Screen::No, &start, &exchanges, cut);
        }
    }
    for recording in RECORDINGS.iter().filter(|recording| ["enc-one", "dec-one"].contains(&recording.name)) {
        script.heading(&format!("The recording {}, cut in two at each place", recording.name));
        at_each_place(script, recording);
    }
    script.heading("Conversations in single bytes");
    for _ in 0..12 {
        conversation(script, Cut::Bytes);
    }
    script.heading("Conversations in one chunk, as far as turns allow it");
    for _ in 0..50 {
        conversation(script, Cut::Whole);
    }
    script.heading("Conversations cut anyhow");
    for _ in 0..110 {
        conversation(script, Cut::Anyhow);
    }
}

/// A phase one, and what follows it.
pub(super) struct Conversation {
    pub(super) start: Start,
    pub(super) exchanges: Vec<Exchange>,
}

/// The recorded conversation. A message with arguments is refused, so there are none here.
pub(super) fn recorded(recording: &Recording) -> Conversation {
    let mut phase_one = recording.phase_one();
    phase_one.pop();
    let start = Start::new(recording.machine, recording.plugin, &phase_one);
    let responses = recording.responses().into_iter().map(|response| Some(as_answer(&response)));
    let pairs = recording.phase_two().into_iter().zip(responses.chain([None]));
    let exchanges = pairs.map(|(command, answer)| Exchange { command, answer });
    let exchanges = exchanges.filter(|exchange| exchange.command.word != b"msg").collect();
    Conversation { start, exchanges }
}

/// No recorded response has a body.
fn as_answer(response: &Command) -> Answer {
    let word = WORDS.into_iter().find(|word| Answer::new(word).text() == response.text());
    Answer::new(word.expect("one of the five"))
}

/// A random conversation at both ends.
fn conversation(script: &mut Script, cut: Cut) {
    let start = some_start(script);
    let exchanges = some_exchanges(script, &start);
    let screen = if script.random.below(4) == 0 { Screen::No } else { Screen::Yes };
    at_client(script, screen, &start, &exchanges, cut);
    at_plugin(script, &start, &exchanges, cut);
}

fn text_of_phase_one(start: &Start) -> Vec<u8> {
    [text_of_all(&start.phase_one), Command::done().text()].concat()
}

fn text_of_phase_two(exchanges: &[Exchange]) -> Vec<u8> {
    exchanges.iter().flat_map(|exchange| exchange.command.text()).collect()
}

/// The client receives all commands as one text; where one waits its host replies before the next chunk.
fn at_client(script: &mut Script, screen: Screen, start: &Start, exchanges: &[Exchange], cut: Cut) {
    let mut live = Live::enter(script, screen, start, AMPLE);
    for piece in pieces(script, &text_of_phase_two(exchanges), cut) {
        reply_all(script, &mut live, exchanges);
        live.chunk_exactly(script, &piece);
    }
    reply_all(script, &mut live, exchanges);
    script.finish();
    script.show();
}

/// The host's replies, one for each command that waits.
fn reply_all(script: &mut Script, live: &mut Live, exchanges: &[Exchange]) {
    while live.waits() {
        script.awaited();
        let answer = exchanges[live.taken - 1].answer.as_ref().expect("a command that waits has an answer");
        live.reply_exactly(script, answer);
    }
}

/// The plugin receives phase one as one text, and each response as one.
fn at_plugin(script: &mut Script, start: &Start, exchanges: &[Exchange], cut: Cut) {
    script.open(End::Plugin, start.machine, start.plugin, AMPLE);
    for piece in pieces(script, &text_of_phase_one(start), cut) {
        script.chunk(&piece, 0);
    }
    for exchange in exchanges {
        script.send(&exchange.command, exchange.command.text().len());
        let Some(answer) = &exchange.answer else { continue };
        let pieces = pieces(script, &answer.text(), cut);
        for (at, piece) in pieces.iter().enumerate() {
            let is_last = at + 1 == pieces.len();
            if is_last && !answer.body.is_empty() {
                script.chunk(piece, answer.body.len() - 1);
            }
            script.chunk(piece, if is_last { answer.body.len() } else { 0 });
        }
    }
    script.finish();
    script.show();
}

/// Phase one in two chunks at the plugin end, phase two in two at the client end.
fn at_each_place(script: &mut Script, recording: &Recording) {
    let Conversation { start, exchanges } = recorded(recording);
    let phase_one = text_of_phase_one(&start);
    for place in 0..=phase_one.len() {
        script.open(End::Plugin, start.machine, start.plugin, AMPLE);
        script.chunk(&phase_one[..place], 0);
        script.chunk(&phase_one[place..], 0);
        script.show();
    }
    let phase_two = text_of_phase_two(&exchanges);
    for place in 0..=phase_two.len() {
        let mut live = Live::enter(script, Screen::Yes, &start, AMPLE);
        live.chunk_exactly(script, &phase_two[..place]);
        live.chunk_exactly(script, &phase_two[place..]);
        script.show();
    }
}
