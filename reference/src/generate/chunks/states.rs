//! Empty chunks, finish and awaited in every state, among them the middle of a stanza and of what was kept back.

use super::live::Live;
use crate::generate::commands::{Command, End};
use crate::generate::phase_two::exchanges::{Answer, Screen, Start, AMPLE};
use crate::generate::Script;

pub(super) fn sections(script: &mut Script) {
    for start in Start::of_both_machines() {
        script.heading(&format!("Questions in every state, {}, Client", start.machine));
        at_client(script, &start);
        script.heading(&format!("Questions in every state, {}, Plugin", start.machine));
        at_plugin(script, &start);
        script.heading(&format!("Questions in a closed session, {}", start.machine));
        closed(script, &start);
    }
}

/// None of them changes anything, so they are put twice.
fn questions(script: &mut Script) {
    for _ in 0..2 {
        script.chunk(b"", 0);
        script.finish();
        script.awaited();
    }
    script.show();
}

fn at_client(script: &mut Script, start: &Start) {
    script.open(End::Client, start.machine, start.plugin, AMPLE);
    questions(script);
    script.pass_all(End::Client, &start.phase_one);
    questions(script);
    for screen in [Screen::Yes, Screen::No] {
        let mut live = Live::enter(script, screen, start, AMPLE);
        questions(script);
        for piece in [
            b"-".as_slice(),
            b"> ms",
            b"g\nSGVs",
            b"bG8\n",
            b"-> grea",
            b"se\n\n-> msg\n\n-> do",
            b"ne\n",
            b"\n",
        ] {
            live.chunk_exactly(script, piece);
            questions(script);
            if live.waits() {
                live.reply(script, &Answer::new("yes"), 99);
                questions(script);
                live.reply_exactly(script, &Answer::new("ok"));
                questions(script);
            }
        }
    }
}

fn at_plugin(script: &mut Script, start: &Start) {
    script.open(End::Plugin, start.machine, start.plugin, AMPLE);
    questions(script);
    for piece in [b"-> add-iden".as_slice(), b"tity a\n\n", b"-> don", b"e\n", b"\n"] {
        script.chunk(piece, 0);
        questions(script);
    }
    script.enter(End::Plugin, start, AMPLE);
    script.send(&Command::of_line(b"request-secret", b""), 99);
    questions(script);
    for (piece, out) in [(b"-> o".as_slice(), 0), (b"k\nYW", 0), (b"Jj\n", 2), (b"", 0), (b"Jj\n", 3)] {
        script.chunk(piece, out);
        questions(script);
    }
    // A half response is no reason to send; and what is sent is no reason to receive.
    script.send(&Command::of_line(b"msg", b""), 99);
    script.chunk(b"-> fai", 0);
    script.send(&Command::of_line(b"msg", b""), 99);
    script.send(&Command::done(), 9);
    script.chunk(b"l\n\n", 0);
    script.send(&Command::done(), 9);
    questions(script);
}

/// Closed in phase one, in phase two, and by a reply.
fn closed(script: &mut Script, start: &Start) {
    script.open(End::Plugin, start.machine, start.plugin, AMPLE);
    script.chunk(b"-> add-identity a\n\n->x", 0);
    questions(script);
    script.enter(End::Plugin, start, AMPLE);
    script.send(&Command::of_line(b"msg", b""), 99);
    script.chunk(b"-> ok yes\n\n-> ok\n\n", 0);
    questions(script);
    let mut live = Live::enter(script, Screen::Yes, start, AMPLE);
    live.chunk(script, b"-> msg\n\n-> error internal\n\n-> msg\n\n-> msg a\n\n-> msg\n\n", 0);
    live.reply_exactly(script, &Answer::new("ok"));
    questions(script);
    live.reply_exactly(script, &Answer::new("ok"));
    questions(script);
}
