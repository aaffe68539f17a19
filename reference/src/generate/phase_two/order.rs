//! Calls with several faults at once: the order of the numbers.

use super::exchanges::{file_key, recipient, Answer, Exchange, Screen, Start, AMPLE, SHORT};
use crate::generate::commands::{Command, End, IDENTITY, RECIPIENT};
use crate::generate::Script;
use crate::session::KINDS;

pub(super) fn sections(script: &mut Script) {
    sending(script);
    receiving(script);
    too_many_and_error(script);
    replying(script);
    responding(script);
}

/// Commands with several faults, given buffers and an output buffer of length 0. Before them a key of file 0 and
/// an error for the stanza of file 1 have passed.
const FAULTS: [(&str, usize); 29] = [
    // 4 before 5, 6, 9, 11, 19, 8 and 15.
    ("file-key 01", 15),
    ("file-key 09 x", 16),
    ("file-key 0", 15),
    ("error stanza 01", 9),
    ("error stanza 0 0 0", 9),
    ("error recipient 01", 9),
    ("done x", 0),
    // 5 before 6, 9, 11, 19, 8 and 15.
    ("file-key 00", 16),
    ("error stanza 09 9", 9),
    ("error stanza 9 09", 9),
    ("error stanza 2 02", 9),
    ("error identity 00", 9),
    // 6 before 9, 11, 19, 8 and 15.
    ("file-key 9", 16),
    ("error stanza 0 9", 9),
    ("error stanza 0 1", 9),
    ("error stanza 1 2", 9),
    // By the count of document 01 these would name something.
    ("error stanza 1 1", 9),
    ("error stanza 2 2", 9),
    ("error stanza 3 4", 9),
    ("error identity 0", 9),
    // 9 before 11, 19, 8 and 15.
    ("file-key 0", 16),
    // 11 before 19, 8 and 15.
    ("error stanza 0 0", 9),
    ("file-key 1", 16),
    // 19 before 8 and 15.
    ("error stanza 2 0", 9),
    ("file-key 3", 16),
    ("done", 0),
    // 8 before 15.
    ("file-key 2", 16),
    ("error internal", 9),
    ("error stanza 3 1", 1),
];

fn before_the_faults() -> [Exchange; 2] {
    [Exchange::file_key(0), Exchange::error("stanza 1 0", b"no")]
}

fn sending(script: &mut Script) {
    script.heading("Several faults at once: a plugin that sends");
    script.enter(End::Plugin, &Start::findings(), AMPLE);
    script.exchange_all(End::Plugin, &before_the_faults());
    script.buffers([0; KINDS]);
    for (line, body) in FAULTS {
        let command = Command::of_line(line.as_bytes(), &vec![b'b'; body]);
        script.send(&command, 0);
        // 17 before them all.
        script.send(&Command::new(&command.word, &[&command.arguments, b" ".as_slice()].concat(), b""), 0);
    }
    script.show();
    script.buffers(AMPLE);
    for (line, body) in FAULTS {
        script.send(&Command::of_line(line.as_bytes(), &vec![b'b'; body]), 0);
    }
    script.show();
}

/// The client end knows no 19.
fn receiving(script: &mut Script) {
    script.heading("Several faults at once: a client that receives");
    for (line, body) in FAULTS {
        let text = Command::of_line(line.as_bytes(), &vec![b'b'; body]).text();
        for lens in [[0; KINDS], AMPLE] {
            script.enter(End::Client, &Start::findings(), AMPLE);
            script.exchange_all(End::Client, &before_the_faults());
            script.buffers(lens);
            script.chunk(&text, 0);
        }
        // 14 before them all.
        script.enter(End::Client, &Start::new(IDENTITY, SHORT, &[]), AMPLE);
        script.chunk(b"-> msg\n\n", 0);
        script.chunk(&text, 0);
        script.chunk(&text[..text.len() - 1], 0);
    }
}

/// 10 before 11: only where there are no recipients and no identities can both be wrong.
fn too_many_and_error(script: &mut Script) {
    script.heading("Too many stanzas, an error before them, no room");
    let none = Start::new(RECIPIENT, SHORT, &[file_key()]);
    let one = Start::new(RECIPIENT, SHORT, &[recipient(), file_key()]);
    for end in [End::Client, End::Plugin] {
        for (start, first) in [
            (&none, Exchange::error("internal", b"")),
            (&none, Exchange::of_line("msg", b"", "ok")),
            (&one, Exchange::error("internal", b"")),
            (&one, Exchange::stanza(0, "s")),
        ] {
            for line in ["recipient-stanza 0 s", "recipient-stanza 1 s", "recipient-stanza 01 s"] {
                script.enter(end, start, AMPLE);
                script.exchange(end, &first);
                script.buffers([0; KINDS]);
                script.exchange(end, &Exchange::of_line(line, b"", "ok"));
            }
        }
    }
}

/// 12, 17, 15 for a host's reply.
fn replying(script: &mut Script) {
    script.heading("Several faults at once: replies");
    script.enter_client(Screen::Yes, &Start::new(RECIPIENT, SHORT, &[]), [0; KINDS]);
    for line in ["msg", "confirm AA", "request-public", "request-secret"] {
        script.chunk(&Command::of_line(line.as_bytes(), b"").text(), 0);
        for word in ["ok", "yes", "no", "fail", "unsupported"] {
            script.reply(&Answer::new(word), 0);
            script.reply(&Answer::with_body(word, b"b"), 0);
        }
        script.reply(&Answer::new("fail"), 9);
    }
}

/// 1 to 3, 12, 15 for a response.
fn responding(script: &mut Script) {
    script.heading("Several faults at once: responses");
    let texts: [&[u8]; 8] = [
        b"-> ok no\nAA", b"-> ok no\nA\n", b"-> fail\nAA\n", b"-> ok yes\nAA\n", b"-> ok yes\n\n",
        b"-> ok\nAA\n", b"-> unsupported\nAA\n", b"-> \n",
    ];
    for text in texts {
        script.enter(End::Plugin, &Start::new(RECIPIENT, SHORT, &[]), [0; KINDS]);
        script.chunk(text, 0);
        script.send(&Command::of_line(b"request-secret", b""), 19);
        script.chunk(text, 0);
        script.chunk(text, 1);
        script.show();
    }
}
