//! Faults in mid-chunk, at both ends and behind a reply; bytes that none awaits; 1 at the very byte.

use super::live::Live;
use crate::generate::commands::{Command, End, IDENTITY, PLUGIN, RECIPIENT};
use crate::generate::phase_two::exchanges::{
    file_key, identity, recipient, unknown, Answer, Screen, Start, AMPLE, SHORT,
};
use crate::generate::text::stanza_text;
use crate::generate::Script;
use crate::session::KINDS;

/// What may stand behind the last stanza that is awaited.
const TAILS: [&[u8]; 7] = [b"x", b"\n", b"\x00", b"-", b"-> ok\n\n", b"-> done\n\n", b"-> done\n\nrest"];

pub(super) fn sections(script: &mut Script) {
    at_client(script);
    behind_a_reply(script);
    faults_and_output(script);
    at_plugin(script);
    responses(script);
    behind_done(script);
    behind_phase_one(script);
    at_the_very_byte(script);
}

/// Commands of recipient-v1 that are refused behind a stanza for file 0 and an unknown command, each with its
/// number: 1, 4, 5, 6, 10, 11 and 8.
const OF_RECIPIENT: [&[u8]; 9] = [
    b"-> msg \n\n",
    b"\r",
    b"-> msg a\n\n",
    b"-> recipient-stanza 01 s\n\n",
    b"-> recipient-stanza 2 s\n\n",
    b"-> recipient-stanza 0 s\n\n",
    b"-> error internal\n\n",
    b"-> recipient-stanza 1 too-long-for-its-buffer\n\n",
    b"-> done\nAA\n",
];

/// Commands of identity-v1 that are refused behind a key for file 3: 9, 11, 6, 4 and 8.
const OF_IDENTITY: [&[u8]; 5] = [
    b"-> file-key 3\nAAAAAAAAAAAAAAAAAAAAAA\n", b"-> error stanza 3 0\n\n",
    b"-> file-key 4\nAAAAAAAAAAAAAAAAAAAAAA\n", b"-> file-key 7\nAAAA\n", b"-> error internal\nbWVzc2FnZQ\n",
];

/// Lengths of buffers that are too short for some of the faults.
const LENGTHS: [usize; KINDS] = [99, 99, 99, 99, 6, 20, 99];

/// A start, what stands before the fault, and the faults.
type Case = (Start, Vec<u8>, &'static [&'static [u8]]);

fn cases() -> [Case; 2] {
    let of_recipient = Start::new(RECIPIENT, SHORT, &[recipient(), file_key(), file_key()]);
    let of_identity = Start::new(IDENTITY, SHORT, &[identity(), unknown(3), unknown(7)]);
    let stanza = [stanza_text(b"recipient-stanza 0 s", b""), stanza_text(b"grease", b"g")].concat();
    let key = [stanza_text(b"grease", b""), stanza_text(b"file-key 3", &[b'k'; 16])].concat();
    [(of_recipient, stanza, &OF_RECIPIENT), (of_identity, key, &OF_IDENTITY)]
}

/// What stands before the fault stands; what is behind it is not looked at.
fn at_client(script: &mut Script) {
    script.heading("Faults in mid-chunk, Client");
    for (start, before, faults) in cases() {
        for fault in faults {
            for behind in [b"".as_slice(), b"-> grease\n\n", b"\r"] {
                let mut live = Live::enter(script, Screen::Yes, &start, LENGTHS);
                live.chunk_exactly(script, &[before.as_slice(), fault, behind].concat());
                script.show();
                live.chunk(script, b"", 0);
                script.awaited();
                script.finish();
            }
        }
    }
}

/// The same kept back behind a command that waits, and then behind a second one.
fn behind_a_reply(script: &mut Script) {
    script.heading("Faults in what was kept back");
    let question = b"-> confirm AA\n\n".as_slice();
    for (start, before, faults) in cases() {
        for fault in faults {
            for behind in [b"".as_slice(), b"-> gre", b"\r"] {
                let mut live = Live::enter(script, Screen::Yes, &start, LENGTHS);
                live.chunk(script, &[question, &before, fault, behind].concat(), 0);
                live.reply_exactly(script, &Answer::new("yes"));
                script.show();
            }
            let mut live = Live::enter(script, Screen::Yes, &start, LENGTHS);
            live.chunk(script, &[question, &before, question, fault, b"-> grease\n\n"].concat(), 0);
            script.awaited();
            live.reply(script, &Answer::new("ok"), 50);
            live.reply_exactly(script, &Answer::new("yes"));
            script.show();
            live.chunk(script, b"-> grease\n\n", 50);
            live.reply_exactly(script, &Answer::new("no"));
            script.awaited();
            script.finish();
            script.show();
        }
    }
    script.heading("A stanza that has not ended in what was kept back");
    let mut live = Live::enter(script, Screen::Yes, &Start::recipient(), AMPLE);
    live.chunk(script, b"-> msg\n\n-> recipient-stanza 0", 0);
    live.reply_exactly(script, &Answer::new("ok"));
    live.chunk_exactly(script, b" tag\nAA");
    live.chunk_exactly(script, b"\n-> msg\n\n-> done\n\n-> ");
    live.reply_exactly(script, &Answer::new("fail"));
    script.finish();
    script.show();
}

/// Faults are met from the left: a response that does not fit and a bad stanza, in both orders.
fn faults_and_output(script: &mut Script) {
    script.heading("A response that does not fit, and a fault, from the left");
    let answered = b"-> grease\n\n".as_slice();
    let texts: [&[&[u8]]; 6] = [
        &[answered, b"\r"],
        &[b"\r", answered],
        &[answered, b"-> msg a\n\n", answered],
        &[answered, answered, b"-> done\n\nx"],
        &[answered, b"-> error internal x\n\n"],
        &[answered, b"-> error internal\n\n", b"-> error identity 9\n\n"],
    ];
    for text in texts {
        for out in [0, 15, 16, 22, 23, 31, 32] {
            let mut live = Live::enter(script, Screen::Yes, &Start::identity(), AMPLE);
            live.chunk(script, &text.concat(), out);
            script.show();
            live.chunk(script, answered, 16);
            let mut live = Live::enter(script, Screen::Yes, &Start::identity(), AMPLE);
            live.chunk(script, &[b"-> msg\n\n", text.concat().as_slice()].concat(), 0);
            live.reply(script, &Answer::new("ok"), 7 + out);
            script.awaited();
            live.reply(script, &Answer::new("fail"), 100);
        }
    }
}

/// A phase one whose middle is bad: 1, 4, 5, 7, 8.
fn at_plugin(script: &mut Script) {
    script.heading("Faults in mid-chunk, Plugin");
    let faults: [&[u8]; 9] = [
        b"->\n",
        b"-> add-identity\n\n",
        b"-> recipient-stanza 03\n\n",
        b"-> recipient-stanza 03 x\n\n",
        b"-> recipient-stanza 2 x\n\n",
        b"-> recipient-stanza 3 too-long-for-its-buffer\n\n",
        b"-> add-identity too-long-for-its-buffer\n\n",
        b"-> done a\n\n",
        b"-> grease\n\n",
    ];
    for fault in faults {
        for behind in [b"".as_slice(), b"-> add-identity b\n\n-> done\n\n", b"-> done\n\n\r", b"-> don"] {
            script.open(End::Plugin, IDENTITY, PLUGIN, [9; KINDS]);
            let text = [b"-> add-identity a\n\n-> recipient-stanza 3 x\n\n", fault, behind].concat();
            script.chunk(&text, 0);
            script.show();
            script.chunk(b"e\n\n", 0);
            script.finish();
            script.show();
        }
    }
}

/// Bytes behind the response that is due, and a response that is refused with bytes behind it.
fn responses(script: &mut Script) {
    script.heading("Bytes behind the response that is due");
    let responses: [&[u8]; 5] =
        [b"-> ok\nYWJj\n", b"-> ok\n\n", b"-> fail\n\n", b"-> ok yes\n\n", b"-> fail\nYQ\n"];
    for response in responses {
        for tail in TAILS.into_iter().chain([b"".as_slice()]) {
            script.enter(End::Plugin, &Start::new(RECIPIENT, SHORT, &[]), [0; KINDS]);
            script.send(&Command::of_line(b"request-secret", b""), 99);
            let (front, rest) = response.split_at(response.len() - 2);
            script.chunk(front, 0);
            let rest = [rest, tail].concat();
            // 12 before 15, and 15 before the 14 behind it.
            script.chunk(&rest, 2);
            script.chunk(&rest, 3);
            script.show();
            // None is due.
            script.chunk(tail, 9);
            script.send(&Command::done(), 9);
            script.finish();
        }
    }
}

/// Bytes behind the last done: 13, in its chunk, in a later one, and kept back.
fn behind_done(script: &mut Script) {
    script.heading("Bytes behind the last done");
    for tail in TAILS {
        let mut live = Live::enter(script, Screen::Yes, &Start::identity(), AMPLE);
        live.chunk(script, b"-> grease\n\n-> do", 16);
        live.chunk(script, &[b"ne\n\n", tail].concat(), 0);
        script.finish();
        live.chunk(script, tail, 0);
        live.chunk(script, b"", 0);
        script.show();
        let mut live = Live::enter(script, Screen::Yes, &Start::identity(), AMPLE);
        live.chunk(script, &[b"-> msg\n\n-> grease\n\n-> done\n\n", tail].concat(), 0);
        live.reply_exactly(script, &Answer::new("ok"));
        live.reply(script, &Answer::new("ok"), 99);
        script.finish();
        script.awaited();
        script.show();
    }
}

/// Bytes behind phase one's done: 14, dropped; the conversation goes on.
fn behind_phase_one(script: &mut Script) {
    script.heading("Bytes behind the done of phase one");
    for tail in TAILS {
        script.open(End::Plugin, RECIPIENT, SHORT, AMPLE);
        script.chunk(&[recipient().text(), b"-> done\n".to_vec()].concat(), 0);
        script.chunk(&[b"\n", tail].concat(), 0);
        script.show();
        script.chunk(tail, 0);
        script.chunk(b"", 0);
        script.send(&Command::of_line(b"msg", b""), 99);
        script.chunk(b"-> ok\n\n", 0);
        script.send(&Command::done(), 9);
        script.finish();
    }
}

/// Each front of a stanza is accepted; the first byte that no stanza can have there gives 1 at once.
fn at_the_very_byte(script: &mut Script) {
    script.heading("1 in the call that brings the byte");
    let texts: [&[u8]; 14] = [
        b"x", b"-x", b"->x", b"-> \n", b"->  ", b"-> a  ", b"-> a \n", b"-> a\r", b"-> a\x7f", b"-> a\n=",
        b"-> a\nA\n", b"-> a\nAB\n", b"-> a\nAA=", b"-> a\n-",
    ];
    let full = [b"-> a\n".as_slice(), &[b'A'; 64]].concat();
    let long = [[full.as_slice(), b"A"].concat(), [full.as_slice(), b"\n-"].concat()];
    for text in texts.into_iter().chain(long.iter().map(Vec::as_slice)) {
        let (front, byte) = text.split_at(text.len() - 1);
        for first in [b"".as_slice(), b"-> grease\n\n"] {
            let mut live = Live::enter(script, Screen::Yes, &Start::new(RECIPIENT, SHORT, &[]), [0; KINDS]);
            live.chunk(script, &[first, front].concat(), 16);
            live.chunk(script, byte, 0);
            live.chunk(script, b"", 0);
            script.open(End::Plugin, RECIPIENT, SHORT, [0; KINDS]);
            script.chunk(&[first, front].concat(), 0);
            script.chunk(byte, 0);
            script.show();
        }
        script.enter(End::Plugin, &Start::new(RECIPIENT, SHORT, &[]), [0; KINDS]);
        script.send(&Command::of_line(b"request-secret", b""), 99);
        script.chunk(front, 0);
        script.chunk(byte, 99);
    }
}
