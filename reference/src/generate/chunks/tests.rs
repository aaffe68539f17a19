//! However a conversation is cut, outputs, tables, buffers and the closing number are those of the uncut one.

use super::cuts::recorded;
use super::live::{pieces, response, Cut};
use crate::generate::commands::{text_of_all, Command};
use crate::generate::phase_one::damaged_text;
use crate::generate::phase_two::exchanges::{Answer, Exchange, Screen, Start, AMPLE};
use crate::generate::phase_two::good::{some_exchanges, some_start};
use crate::generate::phase_two::random::damaged_exchanges;
use crate::generate::recordings::{Recording, RECORDINGS};
use crate::generate::Script;
use crate::refusal::Refusal;
use crate::session::{Buffers, Client, Phase, Plugin, Received};
use crate::stanza;

/// A session after its input, what it wrote, and the refusal that closed it.
#[derive(Debug, PartialEq)]
struct Ending<E> {
    session: E,
    buffers: Buffers,
    output: Vec<u8>,
    closing: Option<Refusal>,
    taken: usize,
}

impl<E> Ending<E> {
    fn new(session: E, buffers: Buffers) -> Self {
        Ending { session, buffers, output: Vec::new(), closing: None, taken: 0 }
    }

    /// Notes what a call came to; none here is refused with 14 or 15.
    fn note<T>(&mut self, received: Received<T>, out: &[u8], phase: Phase) {
        assert!(!matches!(received.refusal, Some(Refusal::OutOfTurn | Refusal::OutputTooShort)));
        self.output.extend(&out[..received.written]);
        self.taken += received.count;
        if phase == Phase::Closed && self.closing.is_none() {
            self.closing = received.refusal;
        }
    }
}

/// Stanzas in chunks of their own, and the rest, which has not ended or is none, in one more.
fn stanzas(text: &[u8]) -> Vec<Vec<u8>> {
    let mut stanzas = Vec::new();
    let mut rest = text;
    while !rest.is_empty() {
        let len = stanza::read(rest).map_or(rest.len(), |stanza| stanza.taken());
        stanzas.push(rest[..len].to_vec());
        rest = &rest[len..];
    }
    stanzas
}

/// The client receives the chunks; where a command waits its host replies, before the next chunk, what the
/// exchange says, or fail if that does not fit.
fn at_client(start: &Start, screen: Screen, exchanges: &[Exchange], chunks: &[Vec<u8>]) -> Ending<Client> {
    let mut client =
        Client::open_with(start.machine.as_bytes(), start.plugin, screen == Screen::Yes).unwrap();
    let mut buffers = Buffers::zeros(AMPLE);
    let mut out = vec![0; 10_000];
    for command in start.phase_one.iter().chain([&Command::done()]) {
        client.send(&command.line(), &command.body, &mut buffers, &mut out).unwrap();
    }
    let mut ending = Ending::new(client, buffers);
    for chunk in chunks {
        let received = ending.session.chunk(chunk, &mut ending.buffers, &mut out);
        let phase = ending.session.session().phase();
        ending.note(received, &out, phase);
        while ending.session.session().awaits().is_some() {
            let answer = exchanges.get(ending.taken - 1).and_then(|exchange| exchange.answer.clone());
            for answer in answer.into_iter().chain([Answer::new("fail")]) {
                let awaited = ending.session.awaited().to_vec();
                assert!(stanza::read(&awaited).is_ok_and(|stanza| stanza.taken() == awaited.len()));
                let received =
                    ending.session.reply(response(&answer), &answer.body, &mut ending.buffers, &mut out);
                if received.refusal != Some(Refusal::UnfitResponse) {
                    let phase = ending.session.session().phase();
                    ending.note(received, &out, phase);
                    break;
                }
            }
        }
    }
    ending
}

fn plugin_in_phase_one(start: &Start, chunks: &[Vec<u8>]) -> Ending<Plugin> {
    let plugin = Plugin::open(start.machine.as_bytes(), start.plugin).unwrap();
    let mut ending = Ending::new(plugin, Buffers::zeros(AMPLE));
    for chunk in chunks {
        let received = ending.session.chunk(chunk, &mut ending.buffers, &mut []);
        let phase = ending.session.session().phase();
        ending.note(received, &[], phase);
    }
    ending
}

/// Sends each command, and receives each response as `cut` cuts it.
fn at_plugin(start: &Start, exchanges: &[Exchange], cut: impl Fn(Vec<u8>) -> Vec<Vec<u8>>) -> Ending<Plugin> {
    let phase_one = [text_of_all(&start.phase_one), Command::done().text()].concat();
    let mut ending = plugin_in_phase_one(start, &cut(phase_one));
    let mut out = vec![0; 10_000];
    for exchange in exchanges {
        let Command { body, .. } = &exchange.command;
        // A recorded message may have arguments, and is not sent.
        let sent = ending.session.send(&exchange.command.line(), body, &mut ending.buffers, &mut out);
        let (Ok(_), Some(answer)) = (sent, &exchange.answer) else { continue };
        for piece in cut(answer.text()) {
            let received = ending.session.chunk(&piece, &mut ending.buffers, &mut out);
            let phase = ending.session.session().phase();
            ending.note(received, &out, phase);
        }
    }
    ending
}

/// The pieces of a text cut at the places.
fn cut_at(text: &[u8], places: &[usize]) -> Vec<Vec<u8>> {
    let places: Vec<usize> = places.iter().map(|&place| place.min(text.len())).collect();
    let starts = [0].into_iter().chain(places.iter().copied());
    let ends = places.iter().copied().chain([text.len()]);
    starts.zip(ends).map(|(start, end)| text[start..end].to_vec()).collect()
}

fn single_bytes(text: &[u8]) -> Vec<Vec<u8>> {
    text.iter().map(|&byte| vec![byte]).collect()
}

/// A recording whole, its refused messages included.
fn whole(recording: &Recording) -> Vec<Exchange> {
    let mut answered = recorded(recording).exchanges.into_iter().peekable();
    let is_next = |exchange: &Exchange, command: &Command| exchange.command == *command;
    let commands = recording.phase_two().into_iter();
    commands
        .map(|command| match answered.next_if(|exchange| is_next(exchange, &command)) {
            Some(exchange) => exchange,
            None => Exchange { command, answer: Some(Answer::new("ok")) },
        })
        .collect()
}

#[test]
fn recordings_cut_at_every_place_at_the_client() {
    for recording in &RECORDINGS {
        let start = recorded(recording).start;
        for exchanges in [recorded(recording).exchanges, whole(recording)] {
            let text: Vec<u8> = exchanges.iter().flat_map(|exchange| exchange.command.text()).collect();
            for screen in [Screen::Yes, Screen::No] {
                let uncut = at_client(&start, screen, &exchanges, &stanzas(&text));
                assert!(matches!(uncut.session.session().phase(), Phase::Ended | Phase::Closed));
                for place in 0..=text.len() {
                    for places in [vec![place], vec![place, place + 1], vec![place / 2, place]] {
                        let cut = at_client(&start, screen, &exchanges, &cut_at(&text, &places));
                        assert_eq!(cut, uncut, "{} at {places:?}", recording.name);
                    }
                }
                assert_eq!(at_client(&start, screen, &exchanges, &single_bytes(&text)), uncut);
            }
        }
    }
}

#[test]
fn recordings_cut_at_every_place_at_the_plugin() {
    for recording in &RECORDINGS {
        let start = recorded(recording).start;
        let exchanges = whole(recording);
        let uncut = at_plugin(&start, &exchanges, |text| stanzas(&text));
        // Where an error is owed done is held back, and the session goes on.
        assert!(matches!(uncut.session.session().phase(), Phase::Two | Phase::Ended));
        for place in 0..=recording.text.len() {
            let cut = at_plugin(&start, &exchanges, |text| cut_at(&text, &[place, place + 2]));
            assert_eq!(cut, uncut, "{} at {place}", recording.name);
        }
        assert_eq!(at_plugin(&start, &exchanges, |text| single_bytes(&text)), uncut);
    }
}

/// Good conversations, and such as break a rule or are damaged on their way.
#[test]
fn random_conversations_cut_anyhow() {
    let mut script = Script::new();
    let mut closings = 0;
    for round in 0..600 {
        let start = some_start(&mut script);
        let mut exchanges = some_exchanges(&mut script, &start);
        if round % 3 == 1 {
            exchanges = damaged_exchanges(&mut script, exchanges);
        }
        let mut text: Vec<u8> = exchanges.iter().flat_map(|exchange| exchange.command.text()).collect();
        if round % 3 == 2 {
            text = damaged_text(&mut script, &text);
        }
        for screen in [Screen::Yes, Screen::No] {
            let uncut = at_client(&start, screen, &exchanges, &stanzas(&text));
            for cut in [Cut::Whole, Cut::Bytes, Cut::Anyhow] {
                let chunks = pieces(&mut script, &text, cut);
                assert_eq!(at_client(&start, screen, &exchanges, &chunks), uncut);
            }
            closings += usize::from(uncut.closing.is_some());
        }

        let phase_one = [text_of_all(&start.phase_one), Command::done().text()].concat();
        let phase_one = if round % 2 == 0 { phase_one } else { damaged_text(&mut script, &phase_one) };
        // Behind done nothing is awaited, so the text ends there.
        let done = phase_one.windows(9).position(|window| window == b"-> done\n\n");
        let phase_one = &phase_one[..done.map_or(phase_one.len(), |done| done + 9)];
        let uncut = plugin_in_phase_one(&start, &stanzas(phase_one));
        for cut in [Cut::Whole, Cut::Bytes, Cut::Anyhow] {
            let chunks = pieces(&mut script, phase_one, cut);
            assert_eq!(plugin_in_phase_one(&start, &chunks), uncut);
        }
        closings += usize::from(uncut.closing.is_some());
    }
    assert!(closings > 300, "{closings}");
}
