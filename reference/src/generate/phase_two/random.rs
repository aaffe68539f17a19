//! Random phase twos at either end: buffers nearly long enough, commands and answers damaged, calls out of turn.

use super::exchanges::{Answer, Exchange, Screen, Start, AMPLE, LONGEST_ANSWER, WORDS};
use super::good::{some_exchanges, some_kept, some_start, some_talk};
use crate::generate::commands::{Command, End, ENDS};
use crate::generate::phase_one::{damaged_command, damaged_text, some_tail};
use crate::generate::Script;
use crate::session::{Buffers, Client, Kind, KINDS};

/// Commands that are put in where they may not belong.
const ODD_LINES: [&str; 16] = [
    "error internal", "error identity 0", "error identity 1", "error recipient 0", "error stanza 0 0",
    "error stanza 1 0", "error stanza 0 01", "file-key 0", "file-key 1", "file-key 00",
    "recipient-stanza 0 s", "recipient-stanza 1 s", "recipient-stanza 2 s", "done", "msg a", "confirm !",
];

pub(super) fn sections(script: &mut Script) {
    script.heading("Random phase twos: buffers exactly long enough or nearly so");
    for _ in 0..260 {
        let (start, exchanges) = some_conversation(script);
        let end = some_end(script);
        let lens = near_lengths(script, &start, &exchanges);
        script.enter(end, &start, lens);
        script.exchange_all(end, &exchanges);
        script.show();
    }
    script.heading("Random phase twos: commands damaged, put in, or in another order");
    for _ in 0..330 {
        let (start, exchanges) = some_conversation(script);
        let exchanges = damaged_exchanges(script, exchanges);
        let end = some_end(script);
        script.story(end, &start, &exchanges);
    }
    script.heading("Random phase twos: commands that the rules forbid beside the others, or do not");
    for _ in 0..250 {
        let (start, mut exchanges) = some_conversation(script);
        for _ in 0..=script.random.below(3) {
            let at = script.random.below(exchanges.len());
            exchanges.insert(at, some_kept(script, &start));
        }
        let end = some_end(script);
        script.story(end, &start, &exchanges);
    }
    script.heading("Random phase twos: stanzas damaged on their way");
    for _ in 0..220 {
        let (start, exchanges) = some_conversation(script);
        let end = some_end(script);
        damaged_on_the_way(script, end, &start, &exchanges);
    }
    script.heading("Random phase twos: no screen");
    for _ in 0..60 {
        let (start, exchanges) = some_conversation(script);
        script.enter_client(Screen::No, &start, AMPLE);
        for exchange in &exchanges {
            script.exchange_at_client(Screen::No, exchange);
        }
        script.show();
    }
    script.heading(
        "Random calls of phase two: short output buffers, changing buffers, unfit answers, other calls",
    );
    for _ in 0..330 {
        random_calls(script);
    }
}

fn some_conversation(script: &mut Script) -> (Start, Vec<Exchange>) {
    let start = some_start(script);
    let exchanges = some_exchanges(script, &start);
    (start, exchanges)
}

fn some_end(script: &mut Script) -> End {
    ENDS[script.random.below(2)]
}

/// For each kind of phase two the length that its payloads have together, or a length near it.
fn near_lengths(script: &mut Script, start: &Start, exchanges: &[Exchange]) -> [usize; KINDS] {
    let mut lens = kept_lengths(start, exchanges);
    for len in &mut lens[4..] {
        let less = script.random.below(*len + 1);
        *len = [*len, *len, *len, *len + 1, len.saturating_sub(1), less][script.random.below(6)];
    }
    lens
}

/// How many payload bytes of each kind a client keeps.
fn kept_lengths(start: &Start, exchanges: &[Exchange]) -> [usize; KINDS] {
    let no_screen = Client::open_with(start.machine.as_bytes(), start.plugin, false);
    let mut client = no_screen.expect("both names are good");
    let mut buffers = Buffers::zeros([10_000; KINDS]);
    let mut out = vec![0; 10_000];
    for command in start.phase_one.iter().chain([&Command::done()]) {
        client.send(&command.line(), &command.body, &mut buffers, &mut out).expect("phase one is good");
    }
    for exchange in exchanges {
        let received = client.chunk(&exchange.command.text(), &mut buffers, &mut out);
        received.accepted().expect("phase two is good");
    }
    let tables = client.session().tables();
    let len = |kind, number| tables.payload(kind, number as u64, &buffers).len();
    let kinds =
        [Kind::Recipient, Kind::Identity, Kind::FileKey, Kind::Header, Kind::Error, Kind::Stanza, Kind::Key];
    kinds.map(|kind| (0..tables.of(kind).len()).map(|number| len(kind, number)).sum())
}

/// The exchanges with one or two things wrong or in another place.
pub(in crate::generate) fn damaged_exchanges(
    script: &mut Script,
    mut exchanges: Vec<Exchange>,
) -> Vec<Exchange> {
    for _ in 0..=script.random.below(2) {
        let at = script.random.below(exchanges.len());
        let other = script.random.below(exchanges.len());
        match script.random.below(9) {
            0 => exchanges.swap(at, other),
            1 => exchanges.insert(at, exchanges[other].clone()),
            2 | 3 => {
                let answer = some_answer(script);
                exchanges[at].answer = exchanges[at].answer.as_ref().map(|_| answer);
            }
            4..=6 => {
                let odd = some_odd(script);
                exchanges.insert(at, odd);
            }
            _ => exchanges[at].command = damaged_command(script, &exchanges[at].command),
        }
    }
    exchanges
}

/// A command that may not belong there, with the answer that it would get.
fn some_odd(script: &mut Script) -> Exchange {
    let line = ODD_LINES[script.random.below(ODD_LINES.len())];
    let body = if line.starts_with("file-key") { 16 } else { 0 };
    match line {
        "done" => Exchange::done(),
        _ => Exchange::of_line(line, &vec![b'o'; body], "ok"),
    }
}

/// Any answer, with or without a body.
fn some_answer(script: &mut Script) -> Answer {
    let word = WORDS[script.random.below(WORDS.len())];
    let len = script.random.below(2) * script.random.below(9);
    Answer::with_body(word, &script.random.letters(len))
}

/// One of the texts that the end receives is damaged: a command at the client end, a response at the plugin end.
fn damaged_on_the_way(script: &mut Script, end: End, start: &Start, exchanges: &[Exchange]) {
    let damaged = script.random.below(exchanges.len());
    script.enter(end, start, AMPLE);
    for (at, exchange) in exchanges.iter().enumerate() {
        if at != damaged {
            script.exchange(end, exchange);
        } else if end == End::Client {
            let text = damaged_text(script, &exchange.command.text());
            script.chunk(&text, LONGEST_ANSWER);
        } else if let Some(answer) = &exchange.answer {
            script.send(&exchange.command, exchange.command.text().len());
            let text = damaged_text(script, &answer.text());
            script.chunk(&text, answer.body.len() + 1);
        }
    }
    script.show();
}

/// A session at either end with all sorts of calls between the good ones.
fn random_calls(script: &mut Script) {
    let (start, exchanges) = some_conversation(script);
    let end = some_end(script);
    let lens = near_lengths(script, &start, &exchanges);
    script.enter(end, &start, lens);
    for exchange in &exchanges {
        if script.random.below(4) == 0 {
            let lens = near_lengths(script, &start, &exchanges);
            script.buffers(lens);
        }
        if script.random.below(5) == 0 {
            out_of_turn(script, end);
        }
        match end {
            End::Client => random_hearing(script, exchange),
            End::Plugin => random_sending(script, exchange),
        }
    }
    script.show();
}

/// A call that may or may not be in its turn.
fn out_of_turn(script: &mut Script, end: End) {
    let talk = some_talk(script);
    let answer = some_answer(script);
    match (script.random.below(3), end) {
        (0, End::Client) => script.send(&talk.command, 100),
        (1, End::Client) => script.reply(&answer, 50),
        (_, End::Client) => script.chunk(&talk.command.text(), 9),
        (0, End::Plugin) => script.chunk(&talk.command.text(), 0),
        (1, End::Plugin) => script.chunk(&answer.text(), 50),
        (_, End::Plugin) => script.send(&talk.command, 100),
    }
}

/// Receives a command that may be cut in two, may lack output space, and now and then has more behind it; then
/// the host's reply, perhaps after an unfit one or one that finds no space.
fn random_hearing(script: &mut Script, exchange: &Exchange) {
    let mut text = exchange.command.text();
    let answer = exchange.answer.as_ref().map_or(0, |answer| answer.text().len());
    if script.random.below(4) == 0 {
        let rest = text.split_off(script.random.below(text.len()));
        script.chunk(&text, 0);
        text = rest;
    }
    if script.random.below(4) == 0 && !exchange.asks_the_host() && answer > 0 {
        let out = script.random.below(answer);
        script.chunk(&text, out);
    }
    let tail = some_tail(script, b"-> grease\n\n");
    script.chunk(&[text.as_slice(), tail].concat(), 2 * LONGEST_ANSWER);
    if let (true, Some(reply)) = (exchange.asks_the_host(), &exchange.answer) {
        if script.random.below(4) == 0 {
            let unfit = some_answer(script);
            script.reply(&unfit, 50);
        }
        if script.random.below(4) == 0 {
            script.reply(reply, answer - 1);
        }
        let more = script.random.below(2) * LONGEST_ANSWER;
        script.reply(reply, answer + more);
    }
}

/// Sends with an output buffer that may be too short, and then again; then the response, perhaps cut, perhaps
/// with more behind it, perhaps without space for its body.
fn random_sending(script: &mut Script, exchange: &Exchange) {
    let len = exchange.command.text().len();
    if script.random.below(4) == 0 {
        let out = script.random.below(len);
        script.send(&exchange.command, out);
    }
    let out = [len, len, len + 1, 65_536][script.random.below(4)];
    script.send(&exchange.command, out);
    let Some(answer) = &exchange.answer else { return };
    let mut text = answer.text();
    if script.random.below(4) == 0 {
        let rest = text.split_off(script.random.below(text.len()));
        script.chunk(&text, 0);
        text = rest;
    }
    if script.random.below(3) == 0 && !answer.body.is_empty() {
        let out = script.random.below(answer.body.len());
        script.chunk(&text, out);
    }
    let tail = some_tail(script, b"-> ok\n\n");
    let out = answer.body.len() + script.random.below(2);
    script.chunk(&[text.as_slice(), tail].concat(), out);
}
