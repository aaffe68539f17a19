//! Lines for the opening without a screen (document 02, No. 5): a client that is not told of one answers fail at
//! once, as one does that is told that there is none; asked for by name, the screen is there.

use super::chunks::live::{pieces, Cut, Live};
use super::commands::Command;
use super::phase_two::exchanges::{Answer, Exchange, Screen, Start, AMPLE};
use super::phase_two::good::{some_exchanges, some_start};
use super::text::stanza_text;
use super::Script;

const SCREENS: [Screen; 3] = [Screen::Untold, Screen::No, Screen::Yes];

/// A command of each row that the host answers.
const FOR_THE_HOST: [&str; 5] =
    ["msg", "confirm eWVz", "confirm eWVz bm8", "request-public", "request-secret"];

pub(super) fn sections(script: &mut Script) {
    for start in Start::of_both_machines() {
        for screen in SCREENS {
            script.heading(&format!("What the host answers, {}, {screen:?}", start.machine));
            each_command(script, screen, &start);
            script.heading(&format!("Wrong forms come first, {}, {screen:?}", start.machine));
            wrong_forms(script, screen, &start);
            script.heading(&format!("Many in one chunk, {}, {screen:?}", start.machine));
            in_one_chunk(script, screen, &start);
        }
    }
    script.heading("Conversations of a client that is not told of a screen");
    for round in 0..60 {
        let start = some_start(script);
        let exchanges = some_exchanges(script, &start);
        let cut = [Cut::Whole, Cut::Anyhow][round % 2];
        let screen = SCREENS[script.random.below(2)];
        conversation(script, screen, &start, &exchanges, cut);
    }
}

/// Each command alone, with output buffers around fail's length, and each reply behind it.
fn each_command(script: &mut Script, screen: Screen, start: &Start) {
    for line in FOR_THE_HOST {
        for body in [b"".as_slice(), b"Well?"] {
            let mut live = Live::enter(script, screen, start, AMPLE);
            let text = stanza_text(line.as_bytes(), body);
            for out in [0, 8, 9, 10] {
                live.chunk(script, &text, out);
                script.awaited();
                script.finish();
            }
            script.show();
            for word in ["unsupported", "ok", "yes", "fail"] {
                live.reply(script, &Answer::new(word), 20);
            }
            live.chunk(script, &Command::done().text(), 0);
            script.show();
        }
    }
}

/// 4 before the fail that is written, and before 15.
fn wrong_forms(script: &mut Script, screen: Screen, start: &Start) {
    for line in ["msg a", "confirm", "confirm A", "confirm AA AA AA", "request-public a", "request-secret AA"]
    {
        for out in [0, 9] {
            let mut live = Live::enter(script, screen, start, AMPLE);
            live.chunk(script, &stanza_text(line.as_bytes(), b"?"), out);
            live.reply(script, &Answer::new("fail"), 9);
            script.awaited();
            script.show();
        }
    }
}

/// Nothing waits and nothing is kept back, however much stands behind; a fault in mid-chunk leaves the fails.
fn in_one_chunk(script: &mut Script, screen: Screen, start: &Start) {
    let all: Vec<u8> = FOR_THE_HOST.iter().flat_map(|line| stanza_text(line.as_bytes(), b"")).collect();
    let tails: [&[u8]; 5] = [b"", b"-> grease\n\n-> done\n\n", b"-> msg a\n\n", b"-> done\n\nx", b"-> ms"];
    for tail in tails {
        let mut live = Live::enter(script, screen, start, AMPLE);
        live.chunk_exactly(script, &[all.as_slice(), tail].concat());
        script.awaited();
        script.show();
        live.reply(script, &Answer::new("fail"), 99);
        live.chunk(script, b"g\n\n", 9);
        script.finish();
    }
    // More than 8,192 bytes behind the first of them.
    let mut live = Live::enter(script, screen, start, AMPLE);
    live.chunk(script, &stanza_text(b"request-secret", b"").repeat(433), 433 * 9);
    script.show();
}

/// A good conversation; whatever its host would have answered, fail is written.
fn conversation(script: &mut Script, screen: Screen, start: &Start, exchanges: &[Exchange], cut: Cut) {
    let mut live = Live::enter(script, screen, start, AMPLE);
    let text: Vec<u8> = exchanges.iter().flat_map(|exchange| exchange.command.text()).collect();
    for piece in pieces(script, &text, cut) {
        live.chunk_exactly(script, &piece);
    }
    script.finish();
    script.show();
}

#[cfg(test)]
mod tests {
    use super::*;
    use crate::replay::run;

    fn answers(screen: Screen, start: &Start) -> Vec<u8> {
        let mut script = Script::new();
        each_command(&mut script, screen, start);
        wrong_forms(&mut script, screen, start);
        in_one_chunk(&mut script, screen, start);
        let mut output = Vec::new();
        run(script.text.as_slice(), &mut output).unwrap();
        output
    }

    /// Not to be told is to be told that there is none.
    #[test]
    fn untold_is_no() {
        for start in Start::of_both_machines() {
            assert_eq!(answers(Screen::Untold, &start), answers(Screen::No, &start));
            assert_ne!(answers(Screen::Untold, &start), answers(Screen::Yes, &start));
        }
    }

    /// Without a screen every conversation ends without a reply.
    #[test]
    fn conversations_end() {
        let mut script = Script::new();
        for _ in 0..40 {
            let start = some_start(&mut script);
            let exchanges = some_exchanges(&mut script, &start);
            conversation(&mut script, Screen::Untold, &start, &exchanges, Cut::Anyhow);
        }
        let mut output = Vec::new();
        run(script.text.as_slice(), &mut output).unwrap();
        let output = String::from_utf8(output).unwrap();
        assert_eq!(output.matches("phase ended\nawaits -\n").count(), 40);
    }
}
