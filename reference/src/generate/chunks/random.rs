//! Random conversations in chunks: damaged, with other commands put in, in buffers nearly long enough, with all
//! sorts of calls between the good ones.

use super::live::{pieces, Cut, Live};
use crate::generate::commands::{text_of_all, Command, End};
use crate::generate::phase_one::damaged_text;
use crate::generate::phase_two::exchanges::{Answer, Exchange, Screen, Start, AMPLE, WORDS};
use crate::generate::phase_two::good::{some_exchanges, some_kept, some_start, some_talk};
use crate::generate::phase_two::random::damaged_exchanges;
use crate::generate::Script;
use crate::session::KINDS;

pub(super) fn sections(script: &mut Script) {
    script.heading("Random chunks, Client");
    for _ in 0..230 {
        at_client(script);
    }
    script.heading("Random chunks, Plugin");
    for _ in 0..130 {
        at_plugin(script);
    }
}

/// A cut, most often one of pieces of any length.
fn some_cut(script: &mut Script) -> Cut {
    [Cut::Whole, Cut::Anyhow, Cut::Anyhow, Cut::Anyhow][script.random.below(4)]
}

/// The text of the commands, now and then damaged, or with something behind it.
fn some_input(script: &mut Script, text: Vec<u8>) -> Vec<u8> {
    match script.random.below(4) {
        0 => damaged_text(script, &text),
        1 => [text.as_slice(), b"-> done\n\n"].concat(),
        _ => text,
    }
}

/// Buffers that are ample, or short in phase two.
fn some_lengths(script: &mut Script) -> [usize; KINDS] {
    let mut lens = AMPLE;
    if script.random.below(3) == 0 {
        for len in &mut lens[4..] {
            *len = script.random.below(60);
        }
    }
    lens
}

/// A phase two that may break a rule or two.
fn some_phase_two(script: &mut Script, start: &Start) -> Vec<Exchange> {
    let mut exchanges = some_exchanges(script, start);
    for _ in 0..script.random.below(3) {
        let at = script.random.below(exchanges.len());
        let talk = some_talk(script);
        exchanges.insert(at, talk);
    }
    if script.random.below(3) == 0 {
        let at = script.random.below(exchanges.len());
        exchanges.insert(at, some_kept(script, start));
    }
    match script.random.below(3) {
        0 => damaged_exchanges(script, exchanges),
        _ => exchanges,
    }
}

fn at_client(script: &mut Script) {
    let start = some_start(script);
    let exchanges = some_phase_two(script, &start);
    let text = exchanges.iter().flat_map(|exchange| exchange.command.text()).collect();
    let text = some_input(script, text);
    let screen = if script.random.below(5) == 0 { Screen::No } else { Screen::Yes };
    let lens = some_lengths(script);
    let mut live = Live::enter(script, screen, &start, lens);
    let cut = some_cut(script);
    for piece in pieces(script, &text, cut) {
        reply_all(script, &mut live, &exchanges);
        between(script, &mut live);
        some_chunk(script, &mut live, &piece);
        if live.is_over() && script.random.below(2) == 0 {
            break;
        }
    }
    reply_all(script, &mut live, &exchanges);
    between(script, &mut live);
    script.finish();
    script.show();
}

/// A chunk with an output buffer of just the length or a longer one, perhaps after one that is too short.
fn some_chunk(script: &mut Script, live: &mut Live, piece: &[u8]) {
    let len = live.chunk_len(piece);
    if len > 0 && script.random.below(4) == 0 {
        let out = script.random.below(len);
        live.chunk(script, piece, out);
    }
    let more = script.random.below(2) * script.random.below(40);
    live.chunk(script, piece, len + more);
}

/// Replies to each command that waits: most often the one that fits, perhaps after others.
fn reply_all(script: &mut Script, live: &mut Live, exchanges: &[Exchange]) {
    while live.waits() {
        between(script, live);
        if script.random.below(4) == 0 {
            let word = WORDS[script.random.below(WORDS.len())];
            live.reply(script, &Answer::new(word), 60);
            continue;
        }
        // Of a damaged text some other command may wait; fail fits them all.
        let exchange = exchanges.get(live.taken - 1).filter(|exchange| exchange.asks_the_host());
        let fail = Answer::new("fail");
        let answer = exchange.and_then(|exchange| exchange.answer.as_ref()).unwrap_or(&fail);
        match script.random.below(3) {
            0 => live.reply_exactly(script, answer),
            1 => live.reply(script, answer, live.reply_len(answer) + 1),
            _ => live.reply_exactly(script, &fail),
        }
    }
}

/// Now and then a call that changes nothing or little.
fn between(script: &mut Script, live: &mut Live) {
    match script.random.below(12) {
        0 => script.awaited(),
        1 => script.finish(),
        2 => live.chunk(script, b"", 0),
        3 if live.waits() => live.chunk(script, b"-> grease\n\n", 16),
        4 if !live.waits() => live.reply(script, &Answer::new("ok"), 99),
        5 => {
            let lens = some_lengths(script);
            live.buffers(script, lens);
        }
        6 => script.send(&Command::of_line(b"msg", b""), 99),
        _ => {}
    }
}

/// Phase one in pieces, perhaps damaged, and the responses in pieces, perhaps damaged or with more behind them.
fn at_plugin(script: &mut Script) {
    let start = some_start(script);
    let exchanges = some_exchanges(script, &start);
    let text = [text_of_all(&start.phase_one), Command::done().text()].concat();
    let text = some_input(script, text);
    script.open(End::Plugin, start.machine, start.plugin, AMPLE);
    let cut = some_cut(script);
    for piece in pieces(script, &text, cut) {
        script.chunk(&piece, 0);
        if script.random.below(8) == 0 {
            script.finish();
        }
    }
    script.show();
    for exchange in &exchanges {
        script.send(&exchange.command, exchange.command.text().len());
        if let Some(answer) = &exchange.answer {
            some_response(script, answer);
        }
        if script.random.below(6) == 0 {
            let tail: &[u8] = [b"".as_slice(), b"x", b"-> ok\n\n"][script.random.below(3)];
            script.chunk(tail, 9);
        }
    }
    script.finish();
    script.show();
}

fn some_response(script: &mut Script, answer: &Answer) {
    let text = match script.random.below(16) {
        0 => damaged_text(script, &answer.text()),
        1 => [answer.text(), answer.text()].concat(),
        _ => answer.text(),
    };
    let pieces = pieces(script, &text, Cut::Anyhow);
    for (at, piece) in pieces.iter().enumerate() {
        let is_last = at + 1 == pieces.len();
        if is_last && !answer.body.is_empty() && script.random.below(2) == 0 {
            script.chunk(piece, answer.body.len() - 1);
        }
        script.chunk(piece, answer.body.len());
    }
}
