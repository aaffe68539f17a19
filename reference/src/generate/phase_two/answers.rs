//! Which responses fit, at both ends; with and without a screen; replies that can't be written; responses that
//! are no stanza.

use super::exchanges::{Answer, Exchange, Screen, Start, AMPLE, LONGEST_ANSWER, SHORT, WORDS};
use crate::generate::commands::{Command, End, RECIPIENT};
use crate::generate::text::stanza_text;
use crate::generate::Script;
use crate::stanza::LIMIT;

/// "-> ok" with a body of so many bytes has 8,192 bytes.
pub(super) const LONGEST_BODY: usize = 6_045;

pub(super) fn sections(script: &mut Script) {
    replies(script);
    responses(script);
    odd_responses(script);
    response_texts(script);
    screens(script);
    long_replies(script);
    long_responses(script);
    output_for_replies(script);
    output_for_responses(script);
}

/// A command of each row that the host answers.
fn for_the_host() -> [Command; 5] {
    let of_line = |line: &[u8]| Command::of_line(line, b"Well?");
    [
        of_line(b"msg"),
        of_line(b"confirm eWVz"),
        of_line(b"confirm eWVz bm8"),
        of_line(b"request-public"),
        of_line(b"request-secret"),
    ]
}

/// A command of each row of the table; of the last two each machine names one, and the other is unknown to it.
fn rows() -> Vec<Command> {
    let mut rows = for_the_host().to_vec();
    rows.push(Command::of_line(b"error internal", b"no"));
    rows.push(Command::of_line(b"recipient-stanza 0 s", b"s"));
    rows.push(Command::of_line(b"file-key 3", &[b'k'; 16]));
    rows
}

/// Every reply to every command; an unfit one leaves the session waiting, and fail then ends it.
fn replies(script: &mut Script) {
    for start in Start::of_both_machines() {
        script.heading(&format!("Every reply to every command, {}", start.machine));
        for command in rows() {
            script.enter_client(Screen::Yes, &start, AMPLE);
            for word in WORDS {
                for body in [b"".as_slice(), b"b"] {
                    // A command that is kept is refused the second time, or not; then replies give 13 or 14.
                    script.chunk(&command.text(), LONGEST_ANSWER);
                    script.reply(&Answer::with_body(word, body), 20);
                    script.reply(&Answer::new("fail"), 9);
                }
            }
            script.show();
        }
    }
}

/// Every response to every command, with and without a body, each in a session of its own.
fn responses(script: &mut Script) {
    for start in Start::of_both_machines() {
        script.heading(&format!("Every response to every command, {}", start.machine));
        for command in rows() {
            for word in WORDS {
                for body in [b"".as_slice(), b"b"] {
                    script.enter(End::Plugin, &start, AMPLE);
                    script.exchange(
                        End::Plugin,
                        &Exchange::new(command.clone(), Answer::with_body(word, body)),
                    );
                    script.send(&Command::of_line(b"msg", b""), 8);
                }
            }
            script.show();
        }
    }
}

/// Other words and more arguments fit no command.
fn odd_responses(script: &mut Script) {
    let lines = [
        "OK", "Ok", "okay", "ok ok", "ok Yes", "ok NO", "ok yes no", "ok no yes", "ok maybe", "yes", "no",
        "fail fail", "fail yes", "Fail", "failed", "unsupported msg", "Unsupported", "msg", "done",
        "ok -> ok", "->", "o k",
    ];
    script.heading("Responses with other words");
    for line in lines {
        for command in ["msg", "confirm eWVz bm8", "request-secret", "error internal", "grease"] {
            script.enter(End::Plugin, &Start::new(RECIPIENT, SHORT, &[]), [0; 7]);
            script.send(&Command::of_line(command.as_bytes(), b""), 30);
            script.chunk(&stanza_text(line.as_bytes(), b""), 0);
        }
    }
}

/// Texts that are no stanza, have not ended yet, or have more behind the response.
fn response_texts(script: &mut Script) {
    script.heading("Texts of responses");
    let texts: [&[u8]; 21] = [
        b"", b"-", b"-> ", b"-> ok", b"-> ok\n", b"-> ok\nAA", b"-> ok\n\nrest", b"-> ok\n\n-> ok\n\n",
        b"-> ok\nAA\n\r", b"x", b"->ok\n\n", b"-> ok \n\n", b"-> ok  no\n\n", b"-> ok\r\n\r\n",
        b"-> ok\nA\n", b"-> ok\nAB\n", b"-> ok\nAA==\n", b" -> ok\n\n", b"\n-> ok\n\n", b"-> ok\n-> ok\n\n",
        b"-> fail\n",
    ];
    for text in texts {
        script.enter(End::Plugin, &Start::new(RECIPIENT, SHORT, &[]), [0; 7]);
        script.send(&Command::of_line(b"request-public", b""), 19);
        script.chunk(text, 1);
        script.show();
        script.chunk(b"-> ok\n\n", 0);
    }
}

/// The host's commands with a screen, without one, and not told of it; an output buffer of 9 bytes, 8 and 0.
fn screens(script: &mut Script) {
    for start in Start::of_both_machines() {
        for screen in ["screen", "no-screen", "default"] {
            script.heading(&format!("{}, {screen}", start.machine));
            script.open_client(start.machine.as_bytes(), start.plugin, screen.as_bytes(), AMPLE);
            script.pass_all(End::Client, &start.phase_one);
            script.pass(End::Client, &Command::done());
            for command in for_the_host() {
                for out in [0, 8, 9] {
                    script.chunk(&command.text(), out);
                }
                script.show();
                script.reply(&Answer::new("fail"), 9);
            }
            script.chunk(&Command::done().text(), 0);
            script.show();
        }
        script.heading(&format!("{}: a wrong form comes before fail", start.machine));
        for line in ["msg a", "confirm", "confirm A", "request-public a", "request-secret a"] {
            script.enter_client(Screen::No, &start, AMPLE);
            script.chunk(&stanza_text(line.as_bytes(), b""), 0);
            script.show();
        }
    }
}

/// Replies whose stanza would have more than 8,192 bytes: 17, after 12 and before 15.
fn long_replies(script: &mut Script) {
    script.heading("Replies too long to be written");
    script.enter_client(Screen::Yes, &Start::new(RECIPIENT, SHORT, &[]), [0; 7]);
    let too_long = [b'r'; LONGEST_BODY + 1];
    for (line, word, out) in [
        ("request-public", "ok", 65_536),
        ("request-public", "ok", LIMIT),
        ("request-secret", "ok", LIMIT + 1),
        ("request-secret", "ok", 0),
        ("request-secret", "fail", 65_536),
        ("msg", "ok", 0),
        ("confirm AA", "yes", 0),
    ] {
        script.chunk(&stanza_text(line.as_bytes(), b""), 0);
        script.reply(&Answer::with_body(word, &too_long), out);
        script.show();
        script.reply(&Answer::new("fail"), 9);
    }
    script.heading("The longest reply");
    script.chunk(b"-> request-secret\n\n", 0);
    let longest = Answer::with_body("ok", &[b'r'; LONGEST_BODY]);
    script.reply(&longest, LIMIT - 1);
    script.reply(&longest, LIMIT);
}

/// Responses of 8,192 bytes and more.
fn long_responses(script: &mut Script) {
    script.heading("Responses of 8,192 bytes and more");
    let longest = Answer::with_body("ok", &[b'r'; LONGEST_BODY]).text();
    let too_long = [b"-> ok\n".as_slice(), &longest[6..longest.len() - 1], b"AAAA\n"].concat();
    let argument = [b"-> ".as_slice(), &[b'o'; 8_300]].concat();
    for text in [&longest, &too_long, &argument] {
        script.enter(End::Plugin, &Start::new(RECIPIENT, SHORT, &[]), [0; 7]);
        script.send(&Command::of_line(b"request-secret", b""), 19);
        script.chunk(text, LONGEST_BODY - 1);
        script.chunk(text, LONGEST_BODY);
        script.show();
    }
}

/// Replies with output buffers exactly long enough, one byte too short, and none.
fn output_for_replies(script: &mut Script) {
    script.heading("Output buffers for replies");
    script.enter_client(Screen::Yes, &Start::new(RECIPIENT, SHORT, &[]), [0; 7]);
    let replies = [
        ("msg", Answer::new("ok")),
        ("msg", Answer::new("fail")),
        ("confirm AA", Answer::new("yes")),
        ("confirm AA", Answer::new("no")),
        ("request-public", Answer::new("ok")),
        ("request-public", Answer::with_body("ok", &[b'p'; 47])),
        ("request-secret", Answer::with_body("ok", &[b's'; 48])),
        ("request-secret", Answer::with_body("ok", b"\x00\xff\n")),
    ];
    for (line, reply) in replies {
        let len = reply.text().len();
        script.chunk(&stanza_text(line.as_bytes(), b""), 0);
        for out in [0, len - 1, len] {
            script.reply(&reply, out);
        }
    }
}

/// Bodies of responses, and output buffers exactly long enough, one byte too short, and longer.
fn output_for_responses(script: &mut Script) {
    script.heading("Output buffers for responses");
    script.enter(End::Plugin, &Start::new(RECIPIENT, SHORT, &[]), [0; 7]);
    for len in [0, 1, 2, 3, 16, 47, 48, 49, 96, 200] {
        let body = script.random.bytes(len);
        let text = Answer::with_body("ok", &body).text();
        for out in [len, len + 1] {
            script.send(&Command::of_line(b"request-secret", b"PIN"), 99);
            if len > 0 {
                script.chunk(&text, 0);
                script.chunk(&text, len - 1);
            }
            script.chunk(&text, out);
        }
    }
    script.show();
}
