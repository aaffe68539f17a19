//! Full tables, buffers exactly long enough, buffers that change between calls, and output buffers.

use super::exchanges::{
    file_key, identity, other_recipient, unknown, Exchange, Screen, Start, AMPLE, LONGEST_ANSWER, SHORT,
};
use crate::generate::commands::{Command, End, ENDS, IDENTITY, RECIPIENT};
use crate::generate::Script;
use crate::session::{Kind, KINDS};

pub(super) fn sections(script: &mut Script) {
    full_tables(script);
    exact_buffers(script);
    changing_buffers(script);
    output_buffers(script);
    unwritable(script);
    long_stanzas(script);
}

fn full_tables(script: &mut Script) {
    for end in ENDS {
        full_errors(script, end);
        full_stanzas(script, end);
        full_keys(script, end);
    }
}

/// Also after 8 the plugin goes on with what needs no slot.
fn full_errors(script: &mut Script, end: End) {
    for start in Start::of_both_machines() {
        script.heading(&format!("384 errors pass, the 385th gives 8, {}, {end:?}", start.machine));
        script.enter(end, &start, [100, 100, 100, 100, 384, 100, 100]);
        let causes = ["internal", "identity 0"];
        for number in 0..385 {
            let message = [b'a' + (number % 26) as u8];
            let message = if number == 384 { b"".as_slice() } else { &message };
            script.exchange(end, &Exchange::error(causes[number % 2], message));
        }
        script.exchange_all(end, &[Exchange::of_line("msg", b"", "ok"), Exchange::done()]);
        script.show();
    }
}

fn full_stanzas(script: &mut Script, end: End) {
    script.heading(&format!("256 returned stanzas pass, the 257th gives 8, {end:?}"));
    let mut phase: Vec<Command> = (0..33).map(other_recipient).collect();
    phase.extend(vec![identity(); 32]);
    phase.extend(vec![file_key(); 5]);
    let start = Start::new(RECIPIENT, SHORT, &phase);
    script.enter(end, &start, [2_000; KINDS]);
    for number in 0..257u32 {
        let line = char::from(b'a' + (number % 26) as u8).to_string();
        // The files take turns, and none has more than 65.
        script.exchange(end, &Exchange::stanza((number * 3) % 5, &line));
    }
    script.exchange_all(end, &[Exchange::of_line("grease", b"", "unsupported"), Exchange::done()]);
    script.show();
    script.heading(&format!("65 stanzas of a file pass, the 66th gives 10, {end:?}"));
    script.enter(end, &start, [2_000; KINDS]);
    script.exchange_all(end, &vec![Exchange::stanza(4, "s"); 66]);
    script.exchange(end, &Exchange::stanza(3, "s"));
}

/// A 257th key would need a 257th header stanza.
fn full_keys(script: &mut Script, end: End) {
    script.heading(&format!("256 returned keys pass, {end:?}"));
    let mut phase = vec![identity()];
    phase.extend((0..256).map(|file| unknown(file * 2)));
    script.enter(end, &Start::new(IDENTITY, SHORT, &phase), [4_096; KINDS]);
    for number in 0..256 {
        // Every file once, in an order of its own.
        script.exchange(end, &Exchange::file_key((number * 37) % 256 * 2));
    }
    script.show();
    script.exchange_all(end, &[Exchange::file_key(0), Exchange::file_key(1), Exchange::done()]);
}

/// A kind, a start, and three exchanges of the kind with the lengths of their payloads.
type KindOfExchanges = (Kind, Start, [(Exchange, usize); 3]);

fn exchanges_by_kind() -> [KindOfExchanges; 4] {
    let error = |cause, len: usize| (Exchange::error(cause, &vec![b'e'; len]), len);
    let stanza = |file, line: &str| (Exchange::stanza(file, line), line.len() + 1);
    let errors = [error("internal", 3), error("identity 0", 1), error("internal", 48)];
    let key = |file| (Exchange::file_key(file), 16);
    let findings = Start::new(IDENTITY, SHORT, &[identity(), unknown(0), unknown(5), unknown(9)]);
    [
        (Kind::Error, Start::recipient(), errors.clone()),
        (Kind::Error, Start::identity(), errors),
        (Kind::Stanza, Start::recipient(), [stanza(1, "a"), stanza(0, "b c"), stanza(1, "long-tag")]),
        (Kind::Key, findings, [key(5), key(0), key(9)]),
    ]
}

/// The lengths of phase one as in `AMPLE`, and of phase two this one for the kind and none for the others.
fn only(kind: Kind, len: usize) -> [usize; KINDS] {
    std::array::from_fn(|place| match place {
        _ if place == kind as usize => len,
        0..=3 => AMPLE[place],
        _ => 0,
    })
}

/// Each kind's buffer exactly long enough for one, two and three commands, and one byte too short for each.
fn exact_buffers(script: &mut Script) {
    for end in ENDS {
        script.heading(&format!("Buffers of phase two exactly long enough, and one byte too short, {end:?}"));
        for (kind, start, commands) in exchanges_by_kind() {
            let mut len = 0;
            let mut exchanges = Vec::new();
            for (exchange, payload) in commands {
                len += payload;
                exchanges.push(exchange);
                for len in [len, len - 1, len + 1] {
                    script.enter(end, &start, only(kind, len));
                    script.exchange_all(end, &exchanges);
                    script.show();
                }
            }
        }
    }
}

/// What is kept counts, whatever is lent now; what is shown goes by what is lent now.
fn changing_buffers(script: &mut Script) {
    for end in ENDS {
        script.heading(&format!("Buffers of phase two that change between calls, {end:?}"));
        for (kind, start, commands) in exchanges_by_kind() {
            let [(first, first_len), (second, second_len), (third, third_len)] = commands;
            let kept = first_len + second_len;
            for len in [0, first_len - 1, first_len, kept - 1, kept, kept + third_len - 1, kept + third_len] {
                script.enter(end, &start, only(kind, kept));
                script.exchange_all(end, &[first.clone(), second.clone()]);
                script.buffers(only(kind, len));
                script.show();
                script.exchange(end, &third);
                script.buffers(only(kind, 200));
                script.show();
            }
            script.enter(end, &start, only(kind, kept));
            script.exchange(end, &first);
            // The buffer is lent anew, and its end is zeros.
            script.buffers([0; KINDS]);
            script.show();
            script.buffers(only(kind, kept));
            script.exchange(end, &second);
            script.show();
        }
        script.heading(&format!("An empty message in a buffer that became too short, {end:?}"));
        for len in [2, 3] {
            script.enter(end, &Start::identity(), AMPLE);
            script.exchange(end, &Exchange::error("internal", b"abc"));
            script.buffers(only(Kind::Error, len));
            script.exchange(end, &Exchange::error("internal", b""));
            script.show();
        }
        script.heading(&format!("The buffers of phase one play no part in phase two, {end:?}"));
        for start in Start::of_both_machines() {
            script.enter(end, &start, AMPLE);
            script.buffers([0, 0, 0, 0, 99, 99, 99]);
            let work =
                if start.machine == RECIPIENT { Exchange::stanza(0, "s") } else { Exchange::file_key(3) };
            script.exchange_all(end, &[work, Exchange::done()]);
            script.show();
        }
    }
}

/// Output buffers exactly long enough, one byte too short, and none, for every command.
fn output_buffers(script: &mut Script) {
    for start in Start::of_both_machines() {
        let work =
            if start.machine == RECIPIENT { Exchange::stanza(0, "s t") } else { Exchange::file_key(7) };
        let mut exchanges = vec![
            Exchange::of_line("msg", b"touch it", "ok"),
            Exchange::of_line("confirm eWVz bm8", &[b'c'; 48], "no"),
            Exchange::of_line("request-public", b"", "fail"),
            Exchange::of_line("request-secret", &[b's'; 47], "ok"),
            Exchange::of_line("grease a b", &[b'g'; 49], "unsupported"),
            work,
            Exchange::done(),
        ];
        if start.machine == IDENTITY {
            exchanges.insert(5, Exchange::error("identity 0", b"no"));
        }
        script.heading(&format!("Output buffers for commands sent, {}", start.machine));
        script.enter(End::Plugin, &start, AMPLE);
        for exchange in &exchanges {
            let len = exchange.command.text().len();
            for out in [0, 1, len - 1] {
                script.send(&exchange.command, out);
            }
            script.show();
            script.exchange(End::Plugin, exchange);
        }
        for screen in [Screen::Yes, Screen::No] {
            script.heading(&format!("Output buffers for answers at once, {}, {screen:?}", start.machine));
            script.enter_client(screen, &start, AMPLE);
            for exchange in &exchanges {
                let answer = exchange.answer.as_ref().map_or(0, |answer| answer.text().len());
                let waits = exchange.asks_the_host();
                if !waits && answer > 0 {
                    for out in [0, answer - 1] {
                        script.chunk(&exchange.command.text(), out);
                    }
                    script.show();
                }
                script.exchange_at_client(screen, exchange);
            }
            script.show();
        }
    }
}

/// What can't be written is refused with 17 at the plugin end too, whatever the command.
fn unwritable(script: &mut Script) {
    let commands: [(&[u8], &[u8]); 20] = [
        (b"", b""),
        (b"", b"msg"),
        (b" ", b""),
        (b" msg", b""),
        (b"msg ", b""),
        (b"msg", b" "),
        (b"confirm", b"eWVz "),
        (b"confirm", b"eWVz  bm8"),
        (b"error", b"internal\n"),
        (b"error", b"identity\r0"),
        (b"error", b"identity 0\x00"),
        (b"file-key", b"03 "),
        (b"file-key", b"\xff"),
        (b"recipient-stanza", b"0 a\x7f"),
        (b"recipient-stanza", b"0  a"),
        (b"done", b"\n"),
        (b"done\n", b""),
        (b"\x1f", b""),
        (b"grease", b"\x80"),
        (b"grease\nmsg", b""),
    ];
    for start in Start::of_both_machines() {
        script.heading(&format!("What a plugin can't send, {}", start.machine));
        script.enter(End::Plugin, &start, AMPLE);
        for (word, arguments) in commands {
            script.send(&Command::new(word, arguments, b""), 100);
            script.send(&Command::new(word, arguments, b"body"), 0);
        }
        script.send(&Command::new(b"msg", b"", &[b'm'; 6_200]), 65_536);
        script.send(&Command::new(b"done", b"", &[b'm'; 6_200]), 0);
        script.show();
        script
            .heading(&format!("What a plugin sends is judged by the text that it makes, {}", start.machine));
        for (word, arguments) in [
            ("error internal", ""),
            ("error identity", "0"),
            ("file-key 3", ""),
            ("recipient-stanza 0", "tag"),
            ("confirm AA", "AA"),
            ("->", "done"),
            ("msg a", ""),
        ] {
            script.send(&Command::new(word.as_bytes(), arguments.as_bytes(), b""), 100);
            script.chunk(b"-> ok\n\n", 0);
        }
        script.show();
    }
}

/// Commands of 8,192 bytes and more, received and sent.
fn long_stanzas(script: &mut Script) {
    script.heading("Commands of phase two of 8,192 and of 8,193 bytes");
    // "-> grease " and two LFs are 12 bytes.
    for len in [8_180, 8_181] {
        let exchange = Exchange::of_line(&format!("grease {}", "g".repeat(len)), b"", "unsupported");
        for end in ENDS {
            script.enter(end, &Start::new(RECIPIENT, SHORT, &[]), [0; KINDS]);
            script.exchange(end, &exchange);
            script.exchange(end, &Exchange::done());
        }
    }
    script.heading("A long message and a long stanza");
    let message = Exchange::error("internal", &[b'e'; 6_000]);
    let stanza = Exchange::of_line("recipient-stanza 1 s", &[b's'; 6_000], "ok");
    for end in ENDS {
        for exchange in [&message, &stanza] {
            for len in [6_002, 5_999] {
                script.enter(end, &Start::recipient(), [len; KINDS]);
                script.exchange(end, exchange);
            }
        }
    }
    script.heading("A command that has not ended after 8,192 bytes");
    let body_line = [[b'A'; 64].as_slice(), b"\n"].concat();
    for text in [
        [b"-> msg ".as_slice(), &[b'A'; 8_200]].concat(),
        [b"-> msg\n".as_slice(), &body_line.repeat(126)].concat(),
    ] {
        script.enter(End::Client, &Start::recipient(), AMPLE);
        script.chunk(&text[..8_100], LONGEST_ANSWER);
        script.chunk(&text[8_100..], LONGEST_ANSWER);
        script.show();
    }
}
