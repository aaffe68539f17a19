//! Each call in each state in which it may not be made: 13 and 14; and questions and look-ups, which always may.

use super::exchanges::{file_key, recipient, Answer, Exchange, Start, AMPLE, SHORT, WORDS};
use crate::bech32::Kind;
use crate::generate::commands::{Command, End, ENDS, MACHINES, RECIPIENT};
use crate::generate::Script;

pub(super) fn sections(script: &mut Script) {
    for machine in MACHINES {
        let start = if machine == RECIPIENT { Start::recipient() } else { Start::identity() };
        for end in ENDS {
            in_phase_one(script, end, &start);
            in_phase_two(script, end, &start);
            while_waiting(script, end, &start);
            when_ended(script, end, &start);
            when_closed(script, end, &start);
        }
    }
    after_every_refusal(script);
}

/// What may always be asked, and a chunk that asks nothing.
fn questions(script: &mut Script) {
    script.chunk(b"", 0);
    script.awaited();
    script.finish();
}

/// Calls by which the end goes on in phase two: of the end itself, good and bad.
fn calls_of_phase_two(script: &mut Script, end: End) {
    match end {
        End::Client => {
            chunks(script, &[b"-> msg\n\n", b"-> done\n\n", b"x", b"-> grease\n\n", b"-> "]);
            replies(script);
        }
        End::Plugin => sends(script, &["msg", "done", "grease", "error internal", ""]),
    }
}

fn replies(script: &mut Script) {
    for word in WORDS {
        script.reply(&Answer::new(word), 20);
    }
    script.reply(&Answer::with_body("ok", &[b'x'; 100]), 0);
}

/// Chunks for a session that awaits none.
fn chunks(script: &mut Script, chunks: &[&[u8]]) {
    for chunk in chunks {
        script.chunk(chunk, 20);
    }
}

fn sends(script: &mut Script, lines: &[&str]) {
    for line in lines {
        script.send(&Command::of_line(line.as_bytes(), b""), 100);
    }
}

/// Calls by which the end goes on in phase one: of the end itself, good and bad.
fn calls_of_phase_one(script: &mut Script, end: End) {
    match end {
        End::Client => sends(script, &["add-identity a", "done", "done a", "grease", ""]),
        End::Plugin => {
            chunks(script, &[b"-> add-identity a\n\n", b"-> done\n\n", b"x", b"-> ok\n\n", b"-> "]);
        }
    }
}

fn look_ups(script: &mut Script) {
    for kind in [Kind::Recipient, Kind::Identity] {
        script.entry(kind, 0);
        script.entry(kind, 1);
    }
}

fn in_phase_one(script: &mut Script, end: End, start: &Start) {
    script.heading(&format!("Calls of phase two in phase one, {}, {end:?}", start.machine));
    script.open(end, start.machine, start.plugin, AMPLE);
    questions(script);
    calls_of_phase_two(script, end);
    script.pass_all(end, &start.phase_one);
    calls_of_phase_two(script, end);
    questions(script);
    script.show();
}

fn in_phase_two(script: &mut Script, end: End, start: &Start) {
    script.heading(&format!("Calls of phase one, and answers, in phase two, {}, {end:?}", start.machine));
    script.enter(end, start, AMPLE);
    for round in 0..2 {
        calls_of_phase_one(script, end);
        if end == End::Client {
            replies(script);
        }
        questions(script);
        look_ups(script);
        if round == 0 {
            script.exchange(end, &Exchange::of_line("grease", b"", "unsupported"));
        }
    }
    script.show();
}

/// While an answer is due: every command, and every call of phase one. What a plugin end would receive then is
/// the answer.
fn while_waiting(script: &mut Script, end: End, start: &Start) {
    let mut lines = vec!["msg", "confirm AA", "request-public", "request-secret"];
    if end == End::Plugin {
        lines.extend(["error internal", "grease", "recipient-stanza 0 s"]);
    }
    for line in lines {
        script.heading(&format!("While {line} awaits its answer, {}, {end:?}", start.machine));
        script.enter(end, start, AMPLE);
        let command = Command::of_line(line.as_bytes(), b"");
        match end {
            End::Client => {
                script.chunk(&command.text(), 0);
                calls_of_phase_one(script, end);
                chunks(script, &[b"-> msg\n\n", b"-> done\n\n", b"-> ok\n\n", b"x", b"-> "]);
            }
            End::Plugin => {
                script.send(&command, 100);
                calls_of_phase_two(script, end);
            }
        }
        questions(script);
        look_ups(script);
        script.show();
    }
}

fn when_ended(script: &mut Script, end: End, start: &Start) {
    script.heading(&format!("When the conversation has ended, {}, {end:?}", start.machine));
    script.enter(end, start, AMPLE);
    script.exchange_all(end, &[Exchange::of_line("msg", b"bye", "ok"), Exchange::done()]);
    calls_of_phase_one(script, end);
    calls_of_phase_two(script, end);
    questions(script);
    look_ups(script);
    script.buffers([30; 7]);
    look_ups(script);
    script.show();
}

fn when_closed(script: &mut Script, end: End, start: &Start) {
    script.heading(&format!("When the session is closed, {}, {end:?}", start.machine));
    script.enter(end, start, AMPLE);
    script.exchange(end, &Exchange::error("internal", b"kept"));
    match end {
        End::Client => script.chunk(b"x", 0),
        End::Plugin => {
            script.send(&Command::of_line(b"msg", b""), 100);
            script.chunk(b"x", 0);
        }
    }
    calls_of_phase_one(script, end);
    calls_of_phase_two(script, end);
    questions(script);
    look_ups(script);
    script.show();
    if end == End::Plugin {
        script.heading(&format!("When phase one has closed the session, {}", start.machine));
        script.open(end, start.machine, start.plugin, AMPLE);
        script.chunk(b"x", 0);
        calls_of_phase_one(script, end);
        calls_of_phase_two(script, end);
        questions(script);
        script.show();
    }
}

/// Which refusals close a client that receives: all but 13, 14 and 15.
fn after_every_refusal(script: &mut Script) {
    script.heading("After each refusal at the client end");
    let start = Start::new(RECIPIENT, SHORT, &[recipient(), file_key()]);
    let faults: [&[u8]; 12] = [
        b"x", b"-> msg", b"", b"-> msg a\n\n", b"-> recipient-stanza 01 s\n\n",
        b"-> recipient-stanza 1 s\n\n", b"-> recipient-stanza 0 too-long\n\n",
        b"-> recipient-stanza 0 s\n\n", b"-> error internal\n\n", b"-> error recipient 1\n\n",
        b"-> done\nAA\n", b"-> grease\n\n",
    ];
    for fault in faults {
        script.enter(End::Client, &start, [20, 0, 20, 0, 5, 5, 0]);
        script.chunk(b"-> recipient-stanza 0 s\n\n", 7);
        script.chunk(fault, 6);
        script.show();
        for text in [b"-> grease\n\n".as_slice(), b"-> recipient-stanza 0 s\n\n", b"-> done\n\n"] {
            script.chunk(text, 20);
        }
        script.show();
    }
}
