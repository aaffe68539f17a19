//! The limit of 8,192 bytes for an unfinished stanza and for what is kept back; output buffers for many
//! responses.

use super::live::Live;
use crate::generate::commands::{different_recipients, text_of_all, Command, End, IDENTITY, RECIPIENT};
use crate::generate::phase_two::exchanges::{Answer, Screen, Start, AMPLE, SHORT};
use crate::generate::Script;
use crate::session::{KEPT_BACK_LIMIT, KINDS};
use crate::stanza::LIMIT;

pub(super) fn sections(script: &mut Script) {
    unfinished(script);
    behind_others(script);
    unfinished_responses(script);
    kept_back(script);
    refused_behind_a_reply(script);
    several_waiting(script);
    many_responses(script);
    full_tables(script);
    long_chunks(script);
}

fn nothing() -> Start {
    Start::new(RECIPIENT, SHORT, &[])
}

/// The front of an unknown command, of the length.
fn front(len: usize) -> Vec<u8> {
    let mut front = b"-> g".to_vec();
    front.resize(len, b'g');
    front
}

/// A whole unknown command of the length.
fn grease(len: usize) -> Vec<u8> {
    [front(len - 2), b"\n\n".to_vec()].concat()
}

/// 8,191 bytes are kept; what the next one brings.
fn unfinished(script: &mut Script) {
    script.heading("An unfinished stanza of 8,191 bytes, and one byte more");
    let inside = front(LIMIT - 1);
    let at_the_end = grease(LIMIT);
    let texts = [
        (&inside, b"g".as_slice()),
        (&inside, b"\r"),
        (&inside, b"\n\n"),
        (&at_the_end[..LIMIT - 1].to_vec(), b"\n"),
        (&at_the_end[..LIMIT - 1].to_vec(), b"="),
    ];
    for (front, last) in texts {
        script.enter_client(Screen::Yes, &nothing(), [0; KINDS]);
        script.chunk(front, 16);
        script.finish();
        script.chunk(last, 16);
        script.show();
    }
    for last in [b"g".as_slice(), b"\r"] {
        script.open(End::Plugin, RECIPIENT, SHORT, [0; KINDS]);
        script.chunk(&inside[..4_000], 0);
        script.chunk(&inside[4_000..], 0);
        script.chunk(last, 0);
        script.show();
    }
}

/// What stood before a stanza that is too long stands.
fn behind_others(script: &mut Script) {
    script.heading("A stanza of more than 8,192 bytes in mid-chunk");
    let others = b"-> add-identity a\n\n-> grease\n\n".as_slice();
    for len in [LIMIT, LIMIT + 1] {
        let mut live = Live::enter(script, Screen::Yes, &nothing(), [0; KINDS]);
        live.chunk_exactly(script, &[others, &front(len)].concat());
        script.show();
        script.open(End::Plugin, RECIPIENT, SHORT, AMPLE);
        script.chunk(&[others, &front(len)].concat(), 0);
        script.show();
    }
}

/// The same where a response is due.
fn unfinished_responses(script: &mut Script) {
    script.heading("An unfinished response of 8,191 bytes, and one byte more");
    for last in [b"g".as_slice(), b"\x00"] {
        script.enter(End::Plugin, &nothing(), [0; KINDS]);
        script.send(&Command::of_line(b"request-public", b""), 99);
        script.chunk(&front(LIMIT - 1), 0);
        script.finish();
        script.chunk(last, 0);
        script.show();
    }
}

/// Exactly 8,192 bytes behind a command that waits pass, one more gives 15; the waiting stanza does not count.
fn kept_back(script: &mut Script) {
    script.heading("8,192 and 8,193 bytes kept back");
    let question = b"-> confirm AA\n\n".as_slice();
    for behind in [grease(KEPT_BACK_LIMIT), [grease(100), front(KEPT_BACK_LIMIT - 100)].concat()] {
        let mut live = Live::enter(script, Screen::Yes, &nothing(), [0; KINDS]);
        live.chunk(script, &question[..7], 0);
        // With one byte more the call takes nothing: what was kept before it is kept still.
        live.chunk(script, &[&question[7..], &behind, b"-"].concat(), 16);
        script.awaited();
        script.show();
        live.chunk(script, &[&question[7..], &behind].concat(), 0);
        script.awaited();
        script.finish();
        live.reply_exactly(script, &Answer::new("yes"));
        live.chunk(script, b"\n\n-> done\n\n", 16);
        script.show();
    }
    script.heading("8,193 bytes kept back behind commands that are undone");
    let start = Start::recipient();
    let mut live = Live::enter(script, Screen::Yes, &start, AMPLE);
    let before = b"-> recipient-stanza 1 s\n\n".as_slice();
    live.chunk(script, &[before, question, &front(KEPT_BACK_LIMIT + 1)].concat(), 7);
    script.show();
    live.chunk(script, &[before, question].concat(), 7);
    script.show();
}

/// What is kept back may itself be a stanza of more than 8,192 bytes (3), or none at its last byte (1).
fn refused_behind_a_reply(script: &mut Script) {
    script.heading("A reply, and 8,192 bytes behind it that are refused");
    let mut bad = front(KEPT_BACK_LIMIT);
    bad[KEPT_BACK_LIMIT - 1] = b'\r';
    let mut body = [b"-> g\n".to_vec(), [[b'A'; 64].as_slice(), b"\n"].concat().repeat(126)].concat();
    body.truncate(KEPT_BACK_LIMIT);
    for behind in [front(KEPT_BACK_LIMIT), body, bad] {
        let mut live = Live::enter(script, Screen::Yes, &nothing(), [0; KINDS]);
        live.chunk(script, &[b"-> msg\n\n", behind.as_slice()].concat(), 0);
        live.reply_exactly(script, &Answer::new("ok"));
        script.awaited();
        script.show();
    }
    script.heading("A reply, and behind it a stanza that becomes too long");
    let mut live = Live::enter(script, Screen::Yes, &nothing(), [0; KINDS]);
    live.chunk(script, &[b"-> msg\n\n-> msg\n\n", front(LIMIT - 8).as_slice()].concat(), 0);
    live.reply(script, &Answer::new("ok"), 7);
    live.reply(script, &Answer::new("ok"), 7);
    live.chunk(script, b"ggggggg", 0);
    live.chunk(script, b"g", 0);
    script.show();
}

/// Several commands that wait in one chunk: one reply for each.
fn several_waiting(script: &mut Script) {
    script.heading("Several commands that wait, in one chunk");
    let commands: [(&[u8], Answer); 6] = [
        (b"-> msg\nSGVsbG8\n", Answer::new("ok")),
        (b"-> confirm eWVz bm8\n\n", Answer::new("no")),
        (b"-> request-public\nTmFtZT8\n", Answer::with_body("ok", b"name")),
        (b"-> grease\n\n-> msg\n\n", Answer::new("fail")),
        (b"-> error internal\nbm8\n-> request-secret\n\n", Answer::with_body("ok", &[b's'; 48])),
        (b"-> confirm AA\n\n", Answer::new("yes")),
    ];
    let text: Vec<u8> = commands.iter().flat_map(|(text, _)| text.to_vec()).collect();
    for tail in [b"".as_slice(), b"-> done\n\n", b"-> don", b"-> done\n\nx", b"x"] {
        let mut live = Live::enter(script, Screen::Yes, &Start::identity(), AMPLE);
        live.chunk(script, &[&text, tail].concat(), 0);
        for (_, answer) in &commands {
            script.awaited();
            for unfit in [Answer::new("unsupported"), Answer::with_body("fail", b"b")] {
                live.reply(script, &unfit, 99);
            }
            live.chunk(script, b"-> grease\n\n", 99);
            script.finish();
            script.show();
            live.reply_exactly(script, answer);
        }
        live.reply(script, &Answer::new("ok"), 99);
        live.chunk(script, b"e\n\n", 0);
        script.finish();
        script.show();
    }
}

/// The output buffer is for the sum of all that the call writes.
fn many_responses(script: &mut Script) {
    script.heading("Output buffers for many responses");
    for screen in [Screen::Yes, Screen::No] {
        for text in [
            b"-> a\n\n".repeat(300),
            b"-> error internal\n\n".repeat(40),
            b"-> a\n\n-> error identity 0\nYWJj\n-> file-key 3\nAAAAAAAAAAAAAAAAAAAAAA\n-> done\n\n".to_vec(),
            b"-> msg\n\n-> a\n\n-> confirm AA\n\n-> a\n\n-> request-secret\n\n-> done\n\n".to_vec(),
        ] {
            let mut live = Live::enter(script, screen, &Start::identity(), AMPLE);
            let len = live.chunk_len(&text);
            for out in [0, 6, 15, len / 2] {
                if out < len {
                    live.chunk(script, &text, out);
                }
            }
            script.show();
            live.chunk_exactly(script, &text);
            while live.waits() {
                live.reply_exactly(script, &Answer::new("fail"));
            }
            script.show();
        }
    }
}

/// Full tables in one chunk: the command too many gives 8, and those before it stand.
fn full_tables(script: &mut Script) {
    script.heading("Full tables in one chunk");
    for (machine, commands) in [
        (RECIPIENT, different_recipients(65)),
        (RECIPIENT, vec![Command::wrap_file_key(&[b'k'; 16]); 65]),
        (IDENTITY, vec![Command::recipient_stanza(b"3", b"t", b""); 257]),
    ] {
        let slots = commands.len() - 1;
        for (count, tail) in
            [(slots, b"-> done\n\n".as_slice()), (slots + 1, b"-> done\n\n"), (slots + 1, b"\r")]
        {
            script.open(End::Plugin, machine, SHORT, AMPLE);
            script.chunk(&[text_of_all(&commands[..count]).as_slice(), tail].concat(), 0);
            script.show();
        }
    }
    for count in [384, 385] {
        let mut live = Live::enter(script, Screen::Yes, &Start::identity(), AMPLE);
        live.chunk_exactly(script, &b"-> error internal\nYQ\n".repeat(count));
        script.show();
    }
}

/// Chunks of far more than 8,192 bytes: only what is kept has a limit.
fn long_chunks(script: &mut Script) {
    script.heading("Long chunks");
    let many = b"-> a\n\n".repeat(5_000);
    script.open(End::Plugin, RECIPIENT, SHORT, AMPLE);
    script.chunk(&many[..many.len() - 3], 0);
    script.chunk(b"\n\n-> done\n", 0);
    script.show();
    let mut live = Live::enter(script, Screen::Yes, &nothing(), [0; KINDS]);
    // The output of 4,097 responses would be longer than any buffer lent here.
    live.chunk(script, &many[..6 * 4_097], 65_536);
    live.chunk(script, &[grease(6_000), grease(6_000), grease(6_000), front(LIMIT - 1)].concat(), 48);
    live.chunk(script, b"\n", 0);
    script.show();
}
